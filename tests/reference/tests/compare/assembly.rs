//! Texts assembled.

mod edges;
mod long;
mod names;
mod sizes;
mod sorts;

use crate::call::{Answer, Call, Sides, Text};
use crate::ffi::Assembly;
use crate::random::Random;
use crate::world::{Lengths, World};
use crate::{random_of, seed};
use std::collections::BTreeMap;

/// Both sides, and what was compared.
struct Texts {
    random: Random,
    sides: Sides,
    /// What the program holds before each text.
    pattern: Vec<u8>,
    texts: u64,
    words: u64,
    /// By refusal; 0 is accepted.
    counts: BTreeMap<u8, u64>,
}

impl Texts {
    /// `part` tells one test's numbers from another's.
    fn new(part: u64) -> Texts {
        let mut random = random_of(seed(), (5 << 32) + part);
        let sides = Sides::new(World::random(&mut random));
        Texts {
            random,
            sides,
            pattern: (0..65_536).map(|at| (at % 251) as u8 ^ 0xA5).collect(),
            texts: 0,
            words: 0,
            counts: BTreeMap::new(),
        }
    }

    /// Assembles into a program of 65,536 bytes.
    fn compare(&mut self, text: impl Into<Vec<u8>>) -> Assembly {
        self.compare_into(text, 65_536)
    }

    /// Assembles into so many bytes, which hold the pattern before. Reply and
    /// every byte must be alike.
    fn compare_into(&mut self, text: impl Into<Vec<u8>>, program: usize) -> Assembly {
        let pattern = &self.pattern;
        self.sides
            .change(|lent| lent.program.copy_from_slice(pattern));
        let lengths = Lengths {
            program,
            ..Lengths::right(0)
        };
        let call = Call::Assemble(Text(text.into()));
        match self.sides.call(&call, &lengths) {
            Ok(Answer::Assemble(assembly)) => {
                self.texts += 1;
                self.words += u64::from(assembly.words);
                *self.counts.entry(assembly.refusal).or_default() += 1;
                assembly
            }
            Ok(answer) => panic!("{answer:?}"),
            Err(difference) => panic!(
                "SISA_SEED={}, text {}, into {program} bytes: {call:?}\n\
                 first difference (reference, library): {difference}",
                seed(),
                self.texts
            ),
        }
    }

    /// Prints what was compared and checks that it was enough: so many texts,
    /// and so many with each of these refusals.
    fn check(&self, texts: u64, of_each: u64, refusals: &[u8]) {
        println!(
            "seed {}: {} texts, {} words, by refusal {:?}",
            seed(),
            self.texts,
            self.words,
            self.counts
        );
        assert!(self.texts >= texts, "{} texts", self.texts);
        for refusal in refusals {
            let count = self.counts.get(refusal).copied().unwrap_or(0);
            assert!(count >= of_each, "{count} with refusal {refusal}");
        }
    }
}
