//! The usage sheet for a show, as document 02's requests L5 and L12 say.
//!
//! Sentences in quotation marks are L5's.

use crate::instruction::KINDS;
use crate::usage::Usage;

/// The counts of accepted runs, and how many they were.
#[derive(Clone, Copy, Debug, PartialEq, Eq)]
pub struct Sheet {
    pub kinds: [u64; KINDS],
    /// L12: taking "has a count in the usage sheet that joins the kind sum".
    pub taken: u64,
    pub reads: [u64; 8],
    pub writes: [u64; 8],
    pub runs: u16,
}

/// What feeding replies: the sheet, and the refusal's number or 0.
#[derive(Clone, Copy, Debug, PartialEq, Eq)]
pub struct Fed {
    pub sheet: Sheet,
    pub refusal: u8,
}

impl Sheet {
    pub fn empty() -> Sheet {
        Sheet {
            kinds: [0; KINDS],
            taken: 0,
            reads: [0; 8],
            writes: [0; 8],
            runs: 0,
        }
    }

    /// Feeds what a run returned, its refusal's number (0 where it was accepted)
    /// and its counts.
    pub fn feed(self, run_refusal: u8, usage: Usage) -> Fed {
        let (sheet, refusal) = match (run_refusal, self.runs) {
            // "13, an accepted run fed after 65,535 such"; "a state or sheet
            // that was handed comes back as it was"
            (0, 65_535) => (self, 13),
            (0, runs) => (self.with(usage, runs + 1), 0),
            // "A run refused adds nothing."
            _ => (self, 0),
        };
        Fed { sheet, refusal }
    }

    /// The sheet with these counts added, and so many runs.
    fn with(self, usage: Usage, runs: u16) -> Sheet {
        Sheet {
            kinds: sums(self.kinds, usage.kinds),
            taken: sum(self.taken, usage.taken),
            reads: sums(self.reads, usage.reads),
            writes: sums(self.writes, usage.writes),
            runs,
        }
    }
}

fn sums<const COUNT: usize>(sheet: [u64; COUNT], run: [u64; COUNT]) -> [u64; COUNT] {
    std::array::from_fn(|k| sum(sheet[k], run[k]))
}

/// "feeding adds them modulo 2^64"
fn sum(sheet: u64, run: u64) -> u64 {
    let sum = u128::from(sheet) + u128::from(run);
    (sum % (1 << 64)) as u64
}
