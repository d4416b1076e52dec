//! "The file of case c"

use super::number;
use crate::save::file_of;

/// "W = 1 + number(c, 0) mod 200, C = number(c, 1) mod 300."
pub fn sizes(c: u64) -> (u64, u64) {
    (1 + number(c, 0) % 200, number(c, 1) % 300)
}

/// Word j of the program of case c.
pub fn program_word(c: u64, j: u64) -> u16 {
    let x = number(c, 1_000 + j);
    match number(c, 2_000 + j) % 16 {
        0 => x as u16,
        _ => (x / 4_096 % 12 * 4_096 + x % 4_096) as u16,
    }
}

/// The file of case c before the damage, without the buffer's rest.
pub fn undamaged(c: u64) -> Vec<u8> {
    let (w, _) = sizes(c);
    of_words(c, w, |j| program_word(c, j))
}

/// The same of so many words, word j being `word(j)`.
pub fn of_words(c: u64, w: u64, word: impl Fn(u64) -> u16) -> Vec<u8> {
    let (_, data) = sizes(c);
    let program: Vec<u8> = (0..w).flat_map(|j| word(j).to_le_bytes()).collect();
    let data: Vec<u8> = (0..data)
        .map(|j| (number(c, 3_000 + j) % 256) as u8)
        .collect();
    // "Its header is W, 16, C, 16 + 2·W"
    file_of(&program, &data)
}

/// The file of case c, "as many as the length" of the buffer's bytes.
pub fn file(c: u64) -> Vec<u8> {
    let mut file = undamaged(c);
    let (w, _) = sizes(c);
    let mut put = |at: usize, x: u64| file[at..at + 4].copy_from_slice(&(x as u32).to_le_bytes());
    match number(c, 2) % 16 {
        // "0, the length becomes number(c, 3) mod the length"
        0 => file.truncate(number(c, 3) as usize % file.len()),
        // "1, the header's W grows by 32,768"
        1 => put(0, w + 32_768),
        // "2, the program offset becomes 15"
        2 => put(4, 15),
        // "3, the data offset grows by 1"
        3 => put(12, 16 + 2 * w + 1),
        _ => {}
    }
    file
}
