//! Trims for pages: that stop at once, soon, or never.

use crate::make::{board, one_of, program_word, with_any_lines, with_any_range};
use crate::random::Random;
use reference::machine::State;

/// Words of a memory, from these addresses on.
pub type Words = Vec<(usize, Vec<u16>)>;

/// So many words that go on to the next: additions, and OUTs.
fn going_on(random: &mut Random, count: u64) -> Vec<u16> {
    let word = |random: &mut Random| match random.below(5) {
        0 => 0xA100 + 512 * random.below(8) as u16 + random.below(256) as u16,
        _ => 0x2000 + 512 * random.below(8) as u16 + random.below(512) as u16,
    };
    (0..count).map(|_| word(random)).collect()
}

/// A trim's words at address 0 and at 0x0100, where lines are handled, and its state:
/// either board, any lines pending, any range locked.
pub fn trim(random: &mut Random) -> (Words, State) {
    let few = random.below(4);
    let some = random.below(100);
    let mut words = match random.below(4) {
        // Any words
        0 => (0..100).map(|_| program_word(random)).collect(),
        1 => going_on(random, few),
        _ => going_on(random, some),
    };
    let length = words.len() as u16;
    match random.below(2) {
        // Unassigned, DIV and DIVU by R0, or back to address 0 by BZ and BNZ
        0 => words.push(one_of(random, &[0xF000, 0xB004, 0xB00D, 0xC007])),
        _ => words.extend([0x8000 + 255 - length, 0x8100 + 254 - length]),
    }
    let handler = vec![0xC003 + 8 * random.below(8) as u16, 0xC002];
    let state = with_any_lines(random, State::reset());
    let state = with_any_range(random, state);
    let mut state = State {
        pc: one_of(random, &[0, 0, 2, 0xFFFE]),
        n: random.below(1 << 20) as u32,
        journaled: random.below(5),
        board: board(random),
        return_address: state.return_address & 0xFFFE,
        ..state
    };
    state.r[7] = random.value();
    (vec![(0, words), (0x0100, handler)], state)
}
