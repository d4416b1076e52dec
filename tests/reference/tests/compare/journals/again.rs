//! There, back and forward again, journals of more than 2,048 places too. Lines are
//! raised before the first run alone: running forward again supposes it.

use super::{before_loop_on_any_board, endless_loop, put};
use crate::call::{plain_state, Answer, Call};
use crate::ffi;
use crate::make::{great_budget, one_of, port};
use crate::random::Random;
use crate::twins::Twins;
use crate::world::{Lengths, World, JOURNAL, LOG};
use crate::{random_of, seed};
use reference::machine::State;
use reference::run::Engine;

const CASES: u64 = 1_000;

/// A run with the journal: what it was handed, and what it did.
struct Stretch {
    state: State,
    inputs: Vec<u16>,
    steps: u32,
    log: Vec<u64>,
}

struct There {
    random: Random,
    twins: Twins,
    lengths: Lengths,
    state: State,
    stretches: Vec<Stretch>,
}

/// A budget, often about the places where the library counts in another way.
fn budget(random: &mut Random, n: u32) -> u32 {
    let any = random.below(JOURNAL as u64) as u32;
    let great = great_budget(random, n);
    one_of(
        random,
        &[0, 1, 60, 2_047, 2_048, 2_049, 4_097, any, great, great],
    )
}

impl There {
    /// Fits `twins` with another loop and journal.
    fn new(mut random: Random, mut twins: Twins, case: u64) -> There {
        let words = endless_loop(&mut random);
        twins.change(|lent| put(lent, &words));
        let any = random.below(JOURNAL as u64 + 1) as usize;
        let places = [0, 1, 5, 300, 2_048, 2_049, 5_000, JOURNAL, JOURNAL, any];
        There {
            state: before_loop_on_any_board(&mut random),
            lengths: Lengths {
                journal: places[case as usize % places.len()],
                ..Lengths::right(LOG)
            },
            random,
            twins,
            stretches: Vec::new(),
        }
    }

    fn engine(&mut self) -> Engine<'static> {
        one_of(&mut self.random, &[Engine::Rules, Engine::PAPER_TABLE])
    }

    fn answer(&mut self, call: &Call) -> Answer {
        let at = || format!("SISA_SEED={}, there and back", seed());
        self.twins.answer(call, &self.lengths, at)
    }

    /// A run with the journal from the state kept: what it replied, None where it
    /// was refused, and the log's entries.
    fn run(&mut self, budget: u32) -> Option<(ffi::Run, Vec<u64>)> {
        let call = Call::Journaled(self.engine(), self.state, budget);
        let Answer::Run(run) = self.answer(&call) else {
            panic!("{call:?}")
        };
        if run.refusal != 0 {
            return None;
        }
        self.state = plain_state(run.state);
        let lent = self.twins.sides.reference.lend(&self.lengths);
        Some((run, lent.log[..run.entries as usize].to_vec()))
    }

    fn inputs(&mut self) -> Vec<u16> {
        self.twins
            .sides
            .reference
            .lend(&self.lengths)
            .inputs
            .to_vec()
    }

    /// A set, and a run.
    fn forward(&mut self) {
        let set = Call::Set(port(&mut self.random), self.random.value());
        self.answer(&set);
        let (state, inputs) = (self.state, self.inputs());
        let budget = budget(&mut self.random, state.n);
        if let Some((run, log)) = self.run(budget) {
            self.stretches.push(Stretch {
                state,
                inputs,
                steps: run.steps,
                log,
            });
        }
    }

    /// Back over the stretches from number `first` on.
    fn back(&mut self, first: usize) {
        let undone = &self.stretches[first..];
        let steps: u64 = undone.iter().map(|x| u64::from(x.steps)).sum();
        let entries: usize = undone.iter().map(|x| x.log.len()).sum();
        let Answer::Back(back) = self.answer(&Call::Back(self.state, steps)) else {
            panic!("no going back")
        };
        assert_eq!((back.refusal, back.entries), (0, entries as u64));
        self.state = plain_state(back.state);
        if let Some(stretch) = self.stretches.get(first) {
            assert_eq!(self.state, stretch.state);
        }
    }

    /// The same stretches with the same inputs again.
    fn again(&mut self, first: usize) {
        for Stretch {
            inputs, steps, log, ..
        } in self.stretches.split_off(first)
        {
            self.twins
                .change(|lent| lent.inputs.copy_from_slice(&inputs));
            let (run, found) = self.run(steps).expect("a run");
            assert_eq!((run.stop, run.steps, found), (0, steps, log));
        }
    }
}

#[test]
fn back_and_forward_again() {
    let mut random = random_of(seed(), 11 << 32);
    let mut twins = Twins::new(World::random(&mut random));
    // Steps gone back, runs of more than 2,048 steps, entries fallen away.
    let (mut gone, mut long, mut fallen) = (0, 0, 0);
    for case in 0..CASES {
        let mut there = There::new(random_of(seed(), (12 << 32) + case), twins, case);
        let count = 1 + there.random.below(4);
        (0..count).for_each(|_| there.forward());
        let last = there.state;
        let journal = there.twins.sides.library().journal().to_vec();
        let first = there.random.below(there.stretches.len() as u64 + 1) as usize;
        for stretch in &there.stretches[first..] {
            gone += u64::from(stretch.steps);
            long += u64::from(stretch.steps > 2_048);
            fallen += stretch.log.len();
        }
        there.back(first);
        there.again(first);
        assert_eq!(there.state, last, "case {case}");
        let library = there.twins.sides.library();
        assert!(library.journal() == journal, "case {case}: another journal");
        twins = there.twins;
    }
    println!(
        "seed {}: {gone} steps back and forward again, {long} runs of more than 2048 steps, \
         {fallen} entries fallen away",
        seed()
    );
    assert!(gone > 200_000 && long > 50 && fallen > 2_000);
}
