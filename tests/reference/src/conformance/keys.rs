//! "Keys"

use super::backs::Calls;
use super::files::{of_words, program_word};
use super::host::Host;
use super::number;
use crate::machine::MEMORY;
use std::ops::Range;

/// "c = 64 to 79"
const CASES: Range<u64> = 64..80;

/// "twenty-four, j = 0 to 23"
const CALLS: Calls = Calls {
    count: 24,
    sets: 2,
    ports: 2,
};

/// The file of case c.
pub fn key_file(c: u64) -> Vec<u8> {
    // "an IN" from port 0 to 3
    file_of_32(c, |x| 40_960 + 512 * (x % 8) + x / 8 % 4)
}

/// The file of case c with 32 words, "where number(c, 4,000 + j) mod 2 is 0" that of
/// x = number(c, 1,000 + j).
pub fn file_of_32(c: u64, of: impl Fn(u64) -> u64) -> Vec<u8> {
    of_words(c, 32, |j| match j {
        // BZ and BNZ of R0 to address 0
        30 => 32_993,
        31 => 33_248,
        _ if number(c, 4_000 + j).is_multiple_of(2) => of(number(c, 1_000 + j)) as u16,
        _ => program_word(c, j),
    })
}

impl Host {
    /// The cases after the printed runs.
    pub fn keys(&mut self) -> Vec<String> {
        CASES.flat_map(|c| self.case_of_keys(c)).collect()
    }

    fn case_of_keys(&mut self, c: u64) -> Vec<String> {
        let refusal = self.load(&key_file(c), MEMORY);
        let mut lines = vec![format!("load {c} {refusal} {}", self.digest(self.kept))];
        lines.extend(self.with_journal(c, &CALLS));
        lines
    }
}
