//! Journals: every word, long ones, there and back and forward again, past reads of
//! the key, what a journal holds, and journals of any numbers.

mod again;
mod any;
mod held;
mod keys;
mod words;

use crate::ffi::Lent;
use crate::make::{board, one_of, with_any_range};
use crate::random::Random;
use reference::machine::State;

/// Adds a word, or the pair that jumps to the next; none can stop a run but an
/// OUT. R7 is a divisor and R6 a jump's target, an address of these words. There is
/// no RETI: it may return to 0x0100, where R6 may be none.
fn add_endless(random: &mut Random, words: &mut Vec<u16>) {
    let [a, b] = [0; 2].map(|_| 512 * random.below(8) as u16);
    let (b, d) = (b / 8, random.below(6) as u16);
    let (e, n6, n8) = (
        256 * random.below(2) as u16,
        random.below(64) as u16,
        random.below(256) as u16,
    );
    let f = one_of(random, &[0, 1, 4, 5]);
    let word = match random.below(22) {
        20 => one_of(random, &[0xC000, 0xC001]) + a,
        21 => 0xC003 + 8 * d,
        0..=2 => a + b + 8 * d + random.below(8) as u16,
        3 => 0x1000 + a + b + 8 * d + f,
        4 | 5 => 0x2000 + a + 64 * d + n6,
        6 | 7 => one_of(random, &[0x3000, 0x5000]) + a + 64 * d + n6,
        8..=11 => one_of(random, &[0x4000, 0x6000]) + a + b + n6,
        12 | 13 => 0x9000 + 512 * d + e + n8,
        14 => 0xA000 + 512 * d + n8 % 4,
        15 => 0xB000 + a + 64 * 7 + 8 * d + f,
        16 | 17 => 0x8000 + a + e + random.below(2) as u16,
        18 if random.below(4) == 0 => 0xA100 + a + n8,
        _ => return jump(words, 2 * words.len() as u16 + 4),
    };
    words.push(word);
}

/// MOVI R6 with the address, JALR R5,R6.
fn jump(words: &mut Vec<u16>, address: u16) {
    words.extend([0x9C00 + address, 0x7D40]);
}

/// A loop from address 0 on that only a full log ends.
fn endless_loop(random: &mut Random) -> Vec<u16> {
    let mut words = Vec::new();
    for _ in 0..1 + random.below(50) {
        add_endless(random, &mut words);
        // MOVI reaches addresses up to 127.
        if words.len() > 58 {
            break;
        }
    }
    jump(&mut words, 0);
    words
}

/// Before such a loop, on an older board.
fn before_loop(random: &mut Random) -> State {
    let mut r = [0; 8].map(|_| random.value());
    r[6] = 0;
    r[7] = r[7].max(1);
    State {
        r,
        n: random.below(1 << 31) as u32,
        ..State::reset()
    }
}

/// Before such a loop on any board, any lines pending and any range locked, which may
/// stop it; on the single-memory board its stores may change it.
fn before_loop_on_any_board(random: &mut Random) -> State {
    let before_loop = before_loop(random);
    State {
        board: board(random),
        enabled: one_of(random, &[0, 1, 255]),
        pending: random.word() as u8,
        ..with_any_range(random, before_loop)
    }
}

/// GETIID R4, ADDI R3,R3,1, RETI
const HANDLER: [u16; 3] = [0xC023, 0x26C1, 0xC002];

/// Puts the words at address 0 of both memories, and at 0x0100 a handler of lines.
fn put(lent: Lent, words: &[u16]) {
    for memory in [lent.program, lent.memory] {
        let places = memory.chunks_mut(2).zip(words);
        places.for_each(|(place, w)| place.copy_from_slice(&w.to_le_bytes()));
        let places = memory[0x0100..].chunks_mut(2).zip(HANDLER);
        places.for_each(|(place, w)| place.copy_from_slice(&w.to_le_bytes()));
    }
}
