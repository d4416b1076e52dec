//! Programs that wait for lines: raises between runs by every export, and back past
//! takings. What must be pending is worked out here: "a raise in between stays".

use super::call;
use crate::call::{plain_state, Answer, Call};
use crate::make::{board, line, one_of};
use crate::random::Random;
use crate::twins::Twins;
use crate::world::{Lengths, World};
use crate::{random_of, seed};
use reference::machine::State;

const CASES: u64 = 400;
const PLACES: usize = 400;

/// EI, DI, GETIID, an addition, a read, a store near the handler, and now and then a
/// word that can stop the run.
fn word(random: &mut Random, enables: u64) -> u16 {
    let d = random.below(7) as u16;
    match random.below(16) {
        k if k < enables => 0xC000 + 512 * d,
        4 => 0xC001,
        5..=7 => 0xC003 + 8 * d,
        8 => 0xA100 + 512 * d,
        9 => 0x6E00 + 64 * d + random.below(64) as u16,
        10 if random.below(8) == 0 => one_of(random, &[0xF000, 0xB00C, 0xC005]),
        _ => 0x2001 + 512 * d + 64 * d,
    }
}

/// A loop at address 0, and at 0x0100 a handler that ends in RETI; some handlers
/// enable lines themselves.
fn put(random: &mut Random, twins: &mut Twins) {
    let mut main: Vec<u16> = (0..2 + random.below(20)).map(|_| word(random, 3)).collect();
    let length = main.len() as u16;
    main.extend([0x8000 + 255 - length, 0x8100 + 254 - length]);
    let nested = one_of(random, &[0, 0, 1, 3]);
    let mut handler: Vec<u16> = (0..random.below(6)).map(|_| word(random, nested)).collect();
    handler.push(0xC002);
    twins.change(|lent| {
        for memory in [&mut *lent.program, &mut *lent.memory] {
            for (first, words) in [(0, &main), (0x0100, &handler)] {
                let places = memory[first..].chunks_mut(2).zip(words);
                places.for_each(|(place, w)| place.copy_from_slice(&w.to_le_bytes()));
            }
        }
    });
}

/// What was seen.
#[derive(Debug, Default)]
struct Counts {
    takings: u64,
    /// Whose return address is in the handler.
    nested: u64,
    /// Undone by going back, and with a raise since.
    undone: u64,
    raised_since: u64,
    odd: u64,
    by_16: u64,
}

struct Handlers {
    random: Random,
    twins: Twins,
    state: State,
    /// What was pending before each counted step, with the lines raised since.
    trail: Vec<u8>,
    /// A line was raised since the last step.
    raised: bool,
    counts: Counts,
}

impl Handlers {
    fn answer(&mut self, call: &Call) -> Answer {
        let lengths = Lengths {
            journal: PLACES,
            ..Lengths::right(one_of(&mut self.random, &[0, 9, 9]))
        };
        let at = || format!("SISA_SEED={}, handlers", seed());
        self.twins.answer(call, &lengths, at)
    }

    fn raise(&mut self) {
        let line = line(&mut self.random);
        let Answer::Raise(raised) = self.answer(&Call::Raise(self.state, line)) else {
            panic!("no raise")
        };
        self.state = plain_state(raised.state);
        match raised.refusal {
            0 => {
                self.trail.iter_mut().for_each(|lines| *lines |= 1 << line);
                self.raised = true;
            }
            _ => self.counts.by_16 += 1,
        }
    }

    /// One step, by any export.
    fn step(&mut self) {
        let call = call(&mut self.random, self.state, 1, 40);
        let answer = self.answer(&call);
        let run = answer.of_run().expect("a run");
        assert_eq!(run.refusal, 0);
        let before = self.state;
        self.state = match answer {
            Answer::Run(run) => plain_state(run.state),
            Answer::HostStep(state, _) => plain_state(state),
            answer => panic!("{answer:?}"),
        };
        match call {
            Call::Journaled(..) if run.steps == 1 => self.trail.push(before.pending),
            Call::Journaled(..) => {}
            _ => self.trail.clear(),
        }
        self.counts.takings += run.usage.taken;
        let nested = self.state.return_address >= 0x0100 && run.usage.taken == 1;
        self.counts.nested += u64::from(nested);
        self.raised &= run.steps == 0;
        if matches!(run.stop, 1..=3) {
            self.state.pc = one_of(&mut self.random, &[0, 0x0100]);
            self.forget();
        }
    }

    /// The host has changed PC, so that nothing is gone back over.
    fn forget(&mut self) {
        self.state.journaled = 0;
        self.trail.clear();
    }

    fn back(&mut self) {
        let most = self.trail.len() as u64;
        let k = self.random.below(most.min(40) + 1);
        let Answer::Back(back) = self.answer(&Call::Back(self.state, k)) else {
            panic!("no going back")
        };
        assert_eq!(back.refusal, 0);
        let lines = self.state.pending;
        self.state = plain_state(back.state);
        let gone = self.trail.split_off((most - k) as usize);
        let expected = gone.first().copied().unwrap_or(lines);
        assert_eq!(self.state.pending, expected);
        let undone = (expected & !lines).count_ones();
        self.counts.undone += u64::from(undone);
        self.counts.raised_since += u64::from(undone > 0 && self.raised);
    }

    /// An odd return address is refused with 5 by every export that tests for it.
    fn odd(&mut self) {
        let state = State {
            return_address: self.state.return_address | 1,
            ..self.state
        };
        let runs = call(&mut self.random, state, 3, 4);
        let call = one_of(&mut self.random, &[0, 1]);
        let answer = match call {
            0 => self.answer(&runs),
            _ => self.answer(&Call::Back(state, 0)),
        };
        assert_eq!(answer.refusal(), 5);
        self.counts.odd += 1;
    }

    fn call(&mut self) {
        match self.random.below(16) {
            0..=2 => self.raise(),
            3 => self.back(),
            4 if self.random.below(4) == 0 => self.odd(),
            _ => self.step(),
        }
    }
}

#[test]
fn programs_that_wait_for_lines() {
    let mut random = random_of(seed(), 22 << 32);
    let twins = Twins::new(World::random(&mut random));
    let mut handlers = Handlers {
        random,
        twins,
        state: State::reset(),
        trail: Vec::new(),
        raised: false,
        counts: Counts::default(),
    };
    for _ in 0..CASES {
        put(&mut handlers.random, &mut handlers.twins);
        handlers.state = State {
            board: board(&mut handlers.random),
            n: 1_000,
            ..State::reset()
        };
        handlers.trail.clear();
        (0..150).for_each(|_| handlers.call());
    }
    let Counts {
        takings,
        nested,
        undone,
        raised_since,
        odd,
        by_16,
    } = handlers.counts;
    println!(
        "seed {}: {takings} lines taken, {nested} within a handler, {undone} given back, \
         {raised_since} times with a raise since, {odd} odd return addresses, {by_16} refused \
         with 16",
        seed()
    );
    assert!(takings > 1_000 && nested > 50 && undone > 100 && raised_since > 20);
    assert!(odd > 100 && by_16 > 100);
}
