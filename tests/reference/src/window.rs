//! The window.

use crate::machine::State;

/// The memory a window looks at.
#[derive(Clone, Copy, Debug, PartialEq, Eq)]
pub enum Memory {
    Program,
    Data,
}

/// "It gives a part of the program or of the data memory, as chosen, by start
/// and length, and shows exactly those bytes."
/// "empty part | window's end beyond the memory lent". L14: "The window now also gets
/// the state and gives a data span holding a locked byte as the empty part".
pub fn window<'a>(
    state: &State,
    chosen: Memory,
    p: &'a [u8],
    d: &'a [u8],
    start: usize,
    count: usize,
) -> &'a [u8] {
    let memory = match chosen {
        Memory::Program => p,
        Memory::Data => d,
    };
    let end = start as u128 + count as u128;
    if end > memory.len() as u128 {
        return &[];
    }
    let locked = |at: usize| u16::try_from(at).is_ok_and(|at| state.locks(at));
    if chosen == Memory::Data && (start..start + count).any(locked) {
        return &[];
    }
    &memory[start..start + count]
}
