//! Two loads of one board and range whose files differ in locked bytes alone, and lists
//! of all calls, by the library: replies, logs, journals, windows, saved files and
//! sheets must be alike. The engines of the runs differ.

use crate::call::{of_library, plain_state, Answer, Bytes, Call, Text};
use crate::ffi::{self, Named};
use crate::make::{self, one_of, program_word};
use crate::random::Random;
use crate::texts;
use crate::world::{Lengths, World};
use crate::{random_of, seed};
use reference::machine::State;
use reference::run::Engine;

const CASES: u64 = 300;

/// The longest journal lent.
const PLACES: usize = 300;

/// A file of two parts in order, and the same with other bytes where D is locked after
/// a load for this board.
fn files(random: &mut Random, named: &Named) -> [Vec<u8>; 2] {
    let words: Vec<u16> = (0..40 + random.below(200))
        .map(|_| program_word(random))
        .collect();
    let program: Vec<u8> = words.iter().flat_map(|w| w.to_le_bytes()).collect();
    let data: Vec<u8> = (0..random.below(400))
        .map(|_| random.word() as u8)
        .collect();
    let header = [words.len(), 16, data.len(), 16 + program.len()];
    let header = header.map(|x| (x as u32).to_le_bytes()).concat();
    let file = [header, program.clone(), data].concat();
    let mut other = file.clone();
    // The part of the file that goes to D from address 0 on.
    let first = if named.board == 0 {
        16 + program.len()
    } else {
        16
    };
    for at in usize::from(named.first)..=usize::from(named.last) {
        if let Some(byte) = other.get_mut(first + at) {
            *byte = random.word() as u8;
        }
    }
    [file, other]
}

/// A range that the file's parts reach.
fn named(random: &mut Random) -> Named {
    let first = random.below(500) as u16;
    let limit = one_of(random, &[1, 2, 8, 60]);
    Named {
        board: make::board(random),
        locked: 1,
        first,
        last: first + random.below(limit) as u16,
    }
}

struct Pair {
    random: Random,
    worlds: [World; 2],
    state: State,
    /// What the runs of each returned.
    sheets: [ffi::Sheet; 2],
    /// A journal of other numbers than its runs' was gone back over.
    any_journal: bool,
    /// Runs by stop.
    stops: [u64; 5],
}

/// The empty sheet.
const EMPTY: ffi::Sheet = ffi::Sheet {
    kinds: [0; 34],
    taken: 0,
    reads: [0; 8],
    writes: [0; 8],
    runs: 0,
};

impl Pair {
    /// Makes the call of both, of the second by the other engine at random.
    fn answers(&mut self, calls: [&Call; 2], lengths: &Lengths) -> [Answer; 2] {
        let other = match self.random.below(2) {
            0 => calls[1].clone(),
            _ => calls[1].by_the_other_engine(),
        };
        let [one, two] = &mut self.worlds;
        let first = of_library(calls[0], one, lengths);
        [first, of_library(&other, two, lengths)]
    }

    fn load(&mut self, named: Named) {
        let [one, other] = files(&mut self.random, &named).map(|x| Call::Load(named, Bytes(x)));
        let [first, second] = self.answers([&one, &other], &Lengths::right(0));
        assert_eq!(first, second, "SISA_SEED={}", seed());
        match first {
            Answer::Load(load) if load.refusal == 0 => self.state = plain_state(load.state),
            answer => panic!("{answer:?}"),
        }
    }

    fn next(&mut self, lengths: &Lengths) -> Call {
        let (random, state) = (&mut self.random, self.state);
        let engine = one_of(random, &[Engine::Rules, Engine::PAPER_TABLE]);
        let budget = random.below(80) as u32;
        match random.below(20) {
            0 => Call::Set(make::port(random), random.value()),
            1 => Call::Raise(state, make::line(random)),
            2 => Call::Back(state, random.below(state.journaled + 2)),
            3 => self.any_back(),
            4 | 5 => {
                let start = random.below(600) as usize;
                Call::Window(
                    state,
                    random.below(2) as u8,
                    start,
                    random.below(200) as usize,
                )
            }
            6 => {
                let length = one_of(random, &[16, 300, 131_088]);
                Call::Save(state, make::destination(random, length))
            }
            7 if random.below(8) == 0 => Call::Assemble(Text(texts::any(random))),
            8 | 9 => Call::HostStep(state),
            10..=12 => Call::Run(engine, state, budget),
            _ if lengths.journal == 0 => Call::Run(engine, state, budget),
            _ => Call::Journaled(engine, state, budget),
        }
    }

    /// Back over numbers that may be no run's.
    fn any_back(&mut self) -> Call {
        let mut state = self.state;
        if self.random.below(6) == 0 {
            state.journaled = self.random.below(PLACES as u64 + 1);
            state.n = state.n.max(PLACES as u32);
            self.any_journal = true;
        }
        Call::Back(state, self.random.below(state.journaled + 1))
    }

    fn call(&mut self) {
        let lengths = Lengths {
            journal: one_of(&mut self.random, &[0, PLACES, PLACES, PLACES]),
            ..Lengths::right(one_of(&mut self.random, &[0, 4, 40]))
        };
        let call = self.next(&lengths);
        let answers = self.answers([&call, &call], &lengths);
        let [one, other] = &answers;
        assert_eq!(one, other, "SISA_SEED={}, {call:?}", seed());
        for (sheet, answer) in self.sheets.iter_mut().zip(&answers) {
            if let Some(run) = answer.of_run() {
                *sheet = ffi::feed(*sheet, run.refusal, run.usage).sheet;
            }
        }
        self.keep(&answers[0]);
    }

    fn keep(&mut self, answer: &Answer) {
        if answer.refusal() != 0 {
            return;
        }
        self.state = plain_state(match answer {
            Answer::Run(run) => run.state,
            Answer::HostStep(state, _) => *state,
            Answer::Back(back) => back.state,
            Answer::Raise(raised) => raised.state,
            _ => return,
        });
        // Other numbers than a run's may leave odd ones.
        self.state.pc &= 0xFFFE;
        self.state.return_address &= 0xFFFE;
        if let Some(run) = answer.of_run() {
            self.stops[usize::from(run.stop)] += 1;
            if matches!(run.stop, 1 | 3 | 4) {
                self.state.pc = one_of(&mut self.random, &[0, self.state.pc.wrapping_add(2)]);
                self.state.journaled = 0;
            }
        }
    }

    /// All that is lent is alike but for the locked bytes, which are as the load put
    /// them, where no other journal was gone back over.
    fn check(&mut self, named: &Named, before: [Vec<u8>; 2]) {
        let range = named.first.into()..=named.last.into();
        assert!(self.worlds[0].journal() == self.worlds[1].journal());
        assert_eq!(self.sheets[0], self.sheets[1]);
        let [mut one, mut other] = self.worlds.clone();
        let right = Lengths::right(0);
        let [first, second] = [&mut one, &mut other].map(|world| world.lend(&right).memory);
        for (memory, before) in [(&*first, &before[0]), (&*second, &before[1])] {
            assert!(self.any_journal || memory[range.clone()] == before[range.clone()]);
        }
        second[range.clone()].copy_from_slice(&first[range]);
        assert_eq!(one.difference(&other), None, "SISA_SEED={}", seed());
    }

    /// D of both.
    fn memories(&mut self) -> [Vec<u8>; 2] {
        let [one, other] = &mut self.worlds;
        let right = Lengths::right(0);
        [one, other].map(|world| world.lend(&right).memory.to_vec())
    }
}

#[test]
fn pairs_that_differ_in_locked_bytes_alone() {
    let mut random = random_of(seed(), 28 << 32);
    let world = World::random(&mut random);
    let mut pair = Pair {
        random,
        worlds: [world.clone(), world],
        state: State::reset(),
        sheets: [EMPTY; 2],
        any_journal: false,
        stops: [0; 5],
    };
    let mut differing = 0;
    for _ in 0..CASES {
        let named = named(&mut pair.random);
        pair.any_journal = false;
        pair.load(named);
        let before = pair.memories();
        differing += u64::from(before[0] != before[1]);
        (0..60).for_each(|_| pair.call());
        pair.check(&named, before);
        pair.worlds[1] = pair.worlds[0].clone();
    }
    println!(
        "seed {}: {differing} pairs of loads that differ, runs by stop {:?}",
        seed(),
        pair.stops
    );
    assert!(differing > 100 && pair.stops.iter().all(|&x| x > 50));
}
