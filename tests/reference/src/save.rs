//! Saving a trim file, as document 02's request L1 says, of the single-memory board as
//! L11 does, and without locked bytes as L14 does.
//!
//! Sentences in quotation marks are L1's unless another is named before them.

use crate::machine::{Memories, State, MEMORY};

/// A file of these parts: "program at offset 16, data straight after it".
pub fn file_of(program: &[u8], data: &[u8]) -> Vec<u8> {
    let header = header([program.len() / 2, 16, data.len(), 16 + program.len()]);
    [&header, program, data].concat()
}

/// 01's header: "four 32-bit little-endian numbers"
pub fn header(numbers: [usize; 4]) -> Vec<u8> {
    let bytes = numbers.map(|x| (x as u32).to_le_bytes());
    bytes.concat()
}

/// The memory without its trailing zero parts of `size` bytes.
fn trimmed(memory: &[u8], size: usize) -> &[u8] {
    let zero = |part: &&[u8]| part.iter().all(|&byte| byte == 0);
    let dropped = memory.rchunks(size).take_while(zero).count();
    &memory[..memory.len() - size * dropped]
}

/// The data memory as L14 has it saved: "L1 leaves locked bytes as zero".
fn unlocked(state: &State, d: &[u8]) -> Vec<u8> {
    let bytes = d.iter().enumerate();
    bytes
        .map(|(at, &byte)| if state.locks(at as u16) { 0 } else { byte })
        .collect()
}

/// "Write a trim file from program and data memory and return its length", or
/// the refusal's number. "The unused end of the destination keeps its bytes." L11:
/// "L1's call now also gets the state", which stays as it is.
pub fn save(state: &State, p: &[u8], d: &[u8], destination: &mut [u8]) -> Result<usize, u8> {
    // 01's "1 | P or D not 65,536 bytes"
    if p.len() != MEMORY || d.len() != MEMORY {
        return Err(1);
    }
    // "Trailing zero words of the program and trailing zero bytes of the data
    // are dropped."
    let program = match state.memories() {
        Memories::Two => trimmed(p, 2),
        // L11: "saves the new board's data memory as data with W zero"
        Memories::Single => &[],
    };
    let file = file_of(program, trimmed(&unlocked(state, d), 1));
    // "9, destination shorter than the file, after 1"
    let Some(start) = destination.get_mut(..file.len()) else {
        return Err(9);
    };
    start.copy_from_slice(&file);
    Ok(file.len())
}
