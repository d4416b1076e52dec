//! "Locked calibration"

use super::boards::long_file;
use super::host::Host;
use super::keys::file_of_32;
use super::{number, Call};
use crate::load::Range;
use crate::machine::{Memories, MEMORY};
use std::ops;

/// "c = 103 to 108"
const CASES: ops::Range<u64> = 103..109;

/// c, C and the range of the three loads.
const LOADS: [(u64, usize, Range); 3] = [
    (109, 1_537, Range { first: 9, last: 8 }),
    (110, 1_536, Range { first: 9, last: 8 }),
    (111, 1_536, Range { first: 8, last: 8 }),
];

/// The range of case c.
pub fn range(c: u64) -> Range {
    let first = number(c, 8) % 32;
    Range {
        first: first as u16,
        last: (first + number(c, 9) % 3) as u16,
    }
}

/// The same where c is one of these cases.
pub fn range_of(c: u64) -> Option<Range> {
    CASES.contains(&c).then(|| range(c))
}

/// "a window starts at (FIRST + 65,532 + number(c, q + 2) mod 8) mod 65,536"
pub fn start_near(call: Call, range: Range) -> usize {
    let start = u64::from(range.first) + 65_532 + call.number(2) % 8;
    (start % 65_536) as usize
}

/// The file of case c.
pub fn locked_file(c: u64) -> Vec<u8> {
    let first = u64::from(range(c).first);
    // "an LD, ST, LDB or STB" near FIRST while R0 is 0
    file_of_32(c, |x| {
        let n6 = (first + 60 + x / 32 % 8) % 64;
        12_288 + 4_096 * (x % 4) + 64 * (x / 4 % 8) + n6
    })
}

impl Host {
    /// The cases after the pages.
    pub fn locks(&mut self) -> Vec<String> {
        let mut lines = Vec::new();
        for c in CASES {
            self.board = Memories::of((c % 2) as u8);
            self.locked = Some(range(c));
            lines.extend(self.load_with_range(c, &locked_file(c)));
            lines.extend(self.after_load(c));
        }
        self.board = Memories::Single;
        for (c, data, range) in LOADS {
            self.locked = Some(range);
            lines.extend(self.load_with_range(c, &long_file(c, data)));
        }
        lines
    }

    /// "load c REFUSAL DIGEST", and the range's line.
    fn load_with_range(&mut self, c: u64, file: &[u8]) -> Vec<String> {
        let refusal = self.load(file, MEMORY);
        let load = format!("load {c} {refusal} {}", self.digest(self.kept));
        let mut lines = vec![load];
        lines.extend(self.locked_line(c));
        lines
    }

    /// "locked c BOARD LOCKED FIRST LAST", of the state that the call returned, which
    /// is kept.
    pub fn locked_line(&self, c: u64) -> Option<String> {
        let s = self.kept;
        let (first, last) = (s.first_locked, s.last_locked);
        let printed = (CASES.start..=LOADS[2].0).contains(&c);
        printed.then(|| format!("locked {c} {} {} {first} {last}", s.board, s.locked))
    }
}
