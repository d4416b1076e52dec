//! "Knob interrupts"

use super::backs::Calls;
use super::files::{of_words, program_word};
use super::host::Host;
use super::{number, Call};
use crate::machine::{Memories, State, MEMORY};
use crate::raise::raise;
use crate::sheet::Sheet;
use std::fmt::Display;
use std::ops::Range;

/// "c = 89 to 96"
const CASES: Range<u64> = 89..97;

/// "twenty-four, j = 0 to 23", raises in place of sets.
const CALLS: Calls = Calls {
    count: 24,
    sets: 2,
    ports: 0,
};

pub fn is_of_knobs(c: u64) -> bool {
    CASES.contains(&c)
}

/// The word of x where number(c, 4,000 + j) mod 4 is 0, an EI, DI or GETIID.
pub fn knob_word(c: u64, j: u64) -> u16 {
    let x = number(c, 1_000 + j);
    match number(c, 4_000 + j) % 4 {
        0 => {
            let f = [0, 0, 1, 3][(x / 8 % 4) as usize];
            (49_152 + 8 * (x % 8) + f) as u16
        }
        _ => program_word(c, j),
    }
}

/// The file of case c.
pub fn knob_file(c: u64) -> Vec<u8> {
    of_words(c, 136, |j| match j {
        // BZ and BNZ of R0 to address 0
        30 => 32_993,
        31 => 33_248,
        // RETI
        135 => 49_154,
        _ => knob_word(c, j),
    })
}

/// "lines c j ENABLED PENDING LINE RETURN"
pub fn lines_of(call: impl Display, state: State) -> String {
    format!(
        "lines {call} {} {} {} {}",
        state.enabled, state.pending, state.line, state.return_address
    )
}

/// The same where the call is of these cases.
pub fn lines_line(call: Call, state: State) -> Option<String> {
    is_of_knobs(call.c).then(|| lines_of(call, state))
}

impl Host {
    /// The cases after those of the single-memory board.
    pub fn knobs(&mut self) -> Vec<String> {
        CASES.flat_map(|c| self.case_of_knobs(c)).collect()
    }

    fn case_of_knobs(&mut self, c: u64) -> Vec<String> {
        self.board = match c % 2 {
            0 => Memories::Two,
            _ => Memories::Single,
        };
        let refusal = self.load(&knob_file(c), MEMORY);
        let mut lines = vec![format!("load {c} {refusal} {}", self.digest(self.kept))];
        self.sheet = Sheet::empty();
        lines.extend(self.with_journal(c, &CALLS));
        lines
    }

    /// "raise c j REFUSAL"
    pub fn raise(&mut self, call: Call) -> Vec<String> {
        let raised = raise(self.kept, (call.number(1) % 10) as u8);
        self.kept = raised.state;
        let line = format!("raise {call} {}", raised.refusal);
        vec![line, lines_of(call, raised.state)]
    }
}
