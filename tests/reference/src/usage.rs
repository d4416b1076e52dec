//! The counts of a run, as document 02's requests L5 and L12 say.
//!
//! Sentences in quotation marks are L5's.

use crate::instruction::{read, KINDS};
use crate::masks::{masks, registers};

/// "count steps by kind and reads and writes by register in 64-bit numbers";
/// kinds by their numbers.
#[derive(Clone, Copy, Debug, PartialEq, Eq)]
pub struct Usage {
    pub kinds: [u64; KINDS],
    /// Lines taken: steps of no kind.
    pub taken: u64,
    pub reads: [u64; 8],
    pub writes: [u64; 8],
}

/// No step counted.
impl Default for Usage {
    fn default() -> Usage {
        Usage {
            kinds: [0; KINDS],
            taken: 0,
            reads: [0; 8],
            writes: [0; 8],
        }
    }
}

impl Usage {
    /// These counts and those of a run that went on from there.
    pub fn and(mut self, more: Usage) -> Usage {
        let kinds = self.kinds.iter_mut().chain([&mut self.taken]);
        let all = kinds.chain(&mut self.reads).chain(&mut self.writes);
        let kinds = more.kinds.iter().chain([&more.taken]);
        let added = kinds.chain(&more.reads).chain(&more.writes);
        all.zip(added).for_each(|(count, x)| *count += x);
        self
    }

    /// Counts a step on this word, "a register once a step by its masks". An
    /// unassigned word, on which there is no step, adds nothing.
    pub fn count(&mut self, w: u16) {
        let masks = masks(w);
        if let Some(x) = read(w) {
            self.kinds[usize::from(x.kind.number())] += 1;
        }
        registers(masks.reads).for_each(|k| self.reads[k] += 1);
        registers(masks.writes).for_each(|k| self.writes[k] += 1);
    }
}
