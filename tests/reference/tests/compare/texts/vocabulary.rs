//! What texts are made of: statements, names, literals.

use crate::make::one_of;
use crate::random::Random;

pub use reference::conformance::texts::vocabulary::SHAPES;

/// A name: a word that means something elsewhere, or any.
pub fn name(random: &mut Random) -> String {
    const WORDS: [&str; 20] = [
        "ADD", "word", "R8", "R9", "R", "R00", "r0", "r7", "x", "x0", "a", "A", "F", "BEEF",
        "MOVI", "xFF", "MUL", "DIVU", "EI", "RETI",
    ];
    if random.below(3) == 0 {
        return one_of(random, &WORDS).to_string();
    }
    const LETTERS: &[u8] = b"abcdefghijklmnopqrstuvwxyzABCDEFGHIJKLMNOPQRSTUVWXYZ0123456789";
    let length = one_of(random, &[2, 3, 5, 8, 15, 16]);
    let first = char::from(LETTERS[random.below(52) as usize]);
    let mut name = first.to_string();
    while name.len() < length {
        name.push(char::from(one_of(random, LETTERS)));
    }
    match name.as_bytes() {
        [b'R', b'0'..=b'7'] => "Rx".to_string(),
        _ => name,
    }
}

/// A literal, also one over 65,535.
pub fn literal(random: &mut Random) -> String {
    const EDGES: [u64; 16] = [
        0, 1, 15, 16, 17, 31, 32, 127, 128, 255, 256, 0x7FFF, 0x8000, 0xFFFF, 0x1_0000, 0x1_0001,
    ];
    let value = match random.below(5) {
        0 => one_of(random, &EDGES),
        1 | 2 => random.below(20),
        3 => u64::from(random.word()),
        _ => random.next(),
    };
    match random.below(5) {
        0 => format!("0x{value:x}"),
        1 => format!("0x{value:04X}"),
        2 => format!("0{value:03}"),
        _ => value.to_string(),
    }
}
