//! The memories, ports, log and journal of one side, and how two sides differ.

use crate::ffi::Lent;
use crate::make::program_word;
use crate::random::Random;
use std::ops::Range;

/// The longest log lent.
pub const LOG: usize = 600;

/// The longest journal lent.
pub const JOURNAL: usize = 6_000;

/// Elements before and after what is lent, which no call may touch.
pub const GUARD: usize = 16;

/// How much of each is lent; 65,536 and 256 are right.
#[derive(Clone, Copy, Debug)]
pub struct Lengths {
    pub program: usize,
    pub memory: usize,
    pub inputs: usize,
    pub outputs: usize,
    pub log: usize,
    pub journal: usize,
}

impl Lengths {
    /// The right lengths, a log of this length and a journal of no places.
    pub fn right(log: usize) -> Lengths {
        Lengths {
            program: 65_536,
            memory: 65_536,
            inputs: 256,
            outputs: 256,
            log,
            journal: 0,
        }
    }

    /// The right lengths for so many trims joined.
    pub fn joined(trims: usize, log: usize) -> Lengths {
        Lengths {
            program: trims * 65_536,
            memory: trims * 65_536,
            inputs: trims * 256,
            outputs: trims * 256,
            log,
            journal: 0,
        }
    }

    /// Whether they are right for so many trims.
    pub fn are_joined(&self, trims: usize) -> bool {
        let bytes = [self.program, self.memory] == [trims * 65_536; 2];
        bytes && [self.inputs, self.outputs] == [trims * 256; 2]
    }

    /// Makes one of them one less or more.
    pub fn one_off(&mut self, random: &mut Random) {
        let length = match random.below(4) {
            0 => &mut self.program,
            1 => &mut self.memory,
            2 => &mut self.inputs,
            _ => &mut self.outputs,
        };
        match random.below(2) {
            0 => *length -= 1,
            _ => *length += 1,
        }
    }
}

#[derive(Clone, PartialEq, Eq)]
pub struct World {
    program: Vec<u8>,
    memory: Vec<u8>,
    inputs: Vec<u16>,
    outputs: Vec<u16>,
    log: Vec<u64>,
    journal: Vec<u64>,
}

impl World {
    /// Random content, the program nearly all assigned words.
    pub fn random(random: &mut Random) -> World {
        World::joined(random, 1)
    }

    /// The same for so many trims.
    pub fn joined(random: &mut Random, trims: usize) -> World {
        // A memory can be lent with one element too many.
        let bytes = 2 * GUARD + trims * 65_536 + 2;
        let words = 2 * GUARD + trims * 256 + 1;
        World {
            program: (0..bytes / 2)
                .flat_map(|_| program_word(random).to_le_bytes())
                .collect(),
            // Words too, for a board that fetches from here.
            memory: (0..bytes / 2)
                .flat_map(|_| program_word(random).to_le_bytes())
                .collect(),
            inputs: (0..words).map(|_| random.value()).collect(),
            outputs: (0..words).map(|_| random.value()).collect(),
            log: (0..2 * GUARD + LOG).map(|_| random.next()).collect(),
            journal: (0..2 * GUARD + JOURNAL).map(|_| random.next()).collect(),
        }
    }

    pub fn lend(&mut self, lengths: &Lengths) -> Lent<'_> {
        self.lend_with_journal(lengths).0
    }

    pub fn lend_with_journal(&mut self, lengths: &Lengths) -> (Lent<'_>, &mut [u64]) {
        let lent = Lent {
            program: &mut self.program[GUARD..GUARD + lengths.program],
            memory: &mut self.memory[GUARD..GUARD + lengths.memory],
            inputs: &mut self.inputs[GUARD..GUARD + lengths.inputs],
            outputs: &mut self.outputs[GUARD..GUARD + lengths.outputs],
            log: &mut self.log[GUARD..GUARD + lengths.log],
        };
        (lent, &mut self.journal[GUARD..GUARD + lengths.journal])
    }

    /// The journal, with its guards.
    pub fn journal(&self) -> &[u64] {
        &self.journal
    }

    /// The first place where `other` differs, but for the journal, whose coding is
    /// each side's own; None where they are alike. Places are counted from the
    /// first that is lent.
    pub fn difference(&self, other: &World) -> Option<String> {
        first("program byte", &self.program, &other.program)
            .or_else(|| first("memory byte", &self.memory, &other.memory))
            .or_else(|| first("input", &self.inputs, &other.inputs))
            .or_else(|| first("output", &self.outputs, &other.outputs))
            .or_else(|| first("log place", &self.log, &other.log))
    }
}

/// The first place of a journal, with its guards, that isn't as it was, but for
/// those of these numbers.
pub fn touched(before: &[u64], after: &[u64], written: Range<u64>) -> Option<String> {
    let number = |at: usize| at as u64 - GUARD as u64;
    let outside = |&at: &usize| at < GUARD || !written.contains(&number(at));
    let mut places = (0..before.len()).filter(outside);
    let at = places.find(|&at| before[at] != after[at])?;
    Some(shown("journal place", at, before[at], after[at]))
}

/// The first place, counted from after the guard, where they differ.
pub fn first<T: PartialEq + Copy + std::fmt::LowerHex>(
    what: &str,
    ours: &[T],
    theirs: &[T],
) -> Option<String> {
    if ours == theirs {
        return None;
    }
    let at = ours.iter().zip(theirs).position(|(x, y)| x != y)?;
    Some(shown(what, at, ours[at], theirs[at]))
}

/// What differs, its place counted from after the guard.
fn shown<T: std::fmt::LowerHex>(what: &str, at: usize, x: T, y: T) -> String {
    format!("{what} {}: {x:#x}, {y:#x}", at as i64 - GUARD as i64)
}
