//! "The single-memory board"

use super::host::Host;
use super::keys::file_of_32;
use super::number;
use crate::machine::{Memories, MEMORY};
use crate::save::header;
use std::ops::Range;

/// "c = 80 to 85"
const CASES: Range<u64> = 80..86;

/// c and C of the three loads, and the board that they name.
const LOADS: [(u64, usize, Memories); 3] = [
    (86, 1_536, Memories::Single),
    (87, 1_537, Memories::Single),
    (88, 1_537, Memories::Two),
];

/// The file of case c.
pub fn storing_file(c: u64) -> Vec<u8> {
    // "an ST or STB" near address 0 while R0 is 0
    file_of_32(c, |x| {
        16_384 + 8_192 * (x % 2) + 64 * (x / 2 % 8) + x / 16 % 64
    })
}

/// "The file has 64,016 bytes"
pub fn long_file(c: u64, data: usize) -> Vec<u8> {
    let mut file = header([32_000, 16, data, 16]);
    file.extend((16..64_016).map(|j| (number(c, j) % 256) as u8));
    file
}

impl Host {
    /// The cases after those with keys.
    pub fn boards(&mut self) -> Vec<String> {
        let mut lines = Vec::new();
        self.board = Memories::Single;
        for c in CASES {
            lines.extend(self.load_for_board(c, &storing_file(c)));
            lines.extend(self.after_load(c));
        }
        for (c, data, board) in LOADS {
            self.board = board;
            lines.extend(self.load_for_board(c, &long_file(c, data)));
        }
        lines
    }

    /// "load c REFUSAL DIGEST", and the board's line.
    fn load_for_board(&mut self, c: u64, file: &[u8]) -> Vec<String> {
        let refusal = self.load(file, MEMORY);
        let load = format!("load {c} {refusal} {}", self.digest(self.kept));
        let mut lines = vec![load];
        lines.extend(self.board_line(c));
        lines
    }

    /// "board c BOARD", of the state that the call returned, which is kept.
    pub fn board_line(&self, c: u64) -> Option<String> {
        let printed = (CASES.start..=LOADS[2].0).contains(&c);
        printed.then(|| format!("board {c} {}", self.kept.board))
    }
}
