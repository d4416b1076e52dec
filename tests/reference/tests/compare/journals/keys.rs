//! Reads of the key, sets of inputs 0 and 1 between them, and back past several
//! reads. Beside the reference's, input 0 is worked out here from the sentence
//! "Stepping back past such a read gives input 0 what it held before the read, even
//! if it was set since".

use super::{before_loop, jump, put};
use crate::call::{plain_state, Answer, Call};
use crate::make::one_of;
use crate::random::Random;
use crate::twins::Twins;
use crate::world::{Lengths, World};
use crate::{random_of, seed};
use reference::machine::State;
use reference::run::Engine;

const CASES: u64 = 300;
const PLACES: usize = 200;

/// A loop mostly of INs from ports 0, 1 and 2.
fn key_loop(random: &mut Random) -> Vec<u16> {
    let mut words = Vec::new();
    for _ in 0..1 + random.below(20) {
        let d = random.below(6) as u16;
        words.push(match random.below(8) {
            0 => 0x2000 + 512 * d + 64 * d + 1, // ADDI
            1 => 0x40C0 + 512 * d,              // ST
            _ => 0xA000 + 512 * d + random.below(3) as u16,
        });
    }
    jump(&mut words, 0);
    words
}

struct Keys {
    random: Random,
    twins: Twins,
    words: Vec<u16>,
    state: State,
    /// Of each counted step, what input 0 held before it where it read the key.
    trail: Vec<Option<u16>>,
    /// What input 0 must hold.
    status: u16,
    /// Backs past one read, past several, and past one with a set since.
    counts: [u64; 3],
    set_since: bool,
}

impl Keys {
    fn new(mut random: Random, mut twins: Twins) -> Keys {
        let words = key_loop(&mut random);
        twins.change(|lent| put(lent, &words));
        Keys {
            state: before_loop(&mut random),
            status: twins.sides.reference.lend(&Lengths::right(0)).inputs[0],
            random,
            twins,
            words,
            trail: Vec::new(),
            counts: [0; 3],
            set_since: false,
        }
    }

    fn answer(&mut self, call: &Call) -> Answer {
        let lengths = Lengths {
            journal: PLACES,
            ..Lengths::right(0)
        };
        let at = || format!("SISA_SEED={}, keys, trail {:?}", seed(), self.trail);
        self.twins.answer(call, &lengths, at)
    }

    fn set(&mut self) {
        let (port, value) = (one_of(&mut self.random, &[0, 0, 1]), self.random.value());
        self.answer(&Call::Set(port, value));
        if port == 0 {
            self.status = value;
            self.set_since = true;
        }
    }

    /// One step; with a journal it is counted, else nothing is any more.
    fn step(&mut self, journaled: bool) {
        let w = self.words[usize::from(self.state.pc / 2)];
        let engine = one_of(&mut self.random, &[Engine::Rules, Engine::PAPER_TABLE]);
        let call = match journaled {
            true => Call::Journaled(engine, self.state, 1),
            false => Call::Run(engine, self.state, 1),
        };
        let Answer::Run(run) = self.answer(&call) else {
            panic!("{call:?}")
        };
        self.state = plain_state(run.state);
        let before = (w & 0xF1FF == 0xA001).then_some(self.status);
        match journaled {
            true if run.steps == 1 => self.trail.push(before),
            true => return,
            false => self.trail.clear(),
        }
        if before.is_some() {
            self.status = 0;
            self.set_since = false;
        }
    }

    fn back(&mut self) {
        let most = self.trail.len() as u64;
        let k = self.random.below(most.min(30) + 1);
        let Answer::Back(back) = self.answer(&Call::Back(self.state, k)) else {
            panic!("no going back")
        };
        self.state = plain_state(back.state);
        let undone = self.trail.split_off((most - k) as usize);
        let mut reads = undone.iter().flatten();
        if let Some(&earliest) = reads.next() {
            self.status = earliest;
            self.counts[usize::from(reads.next().is_some())] += 1;
            self.counts[2] += u64::from(self.set_since);
        }
    }

    fn call(&mut self) {
        match self.random.below(12) {
            0..=2 => self.set(),
            3 => self.back(),
            4 if self.random.below(12) == 0 => self.step(false),
            _ => self.step(true),
        }
        let inputs = self.twins.sides.reference.lend(&Lengths::right(0)).inputs;
        assert_eq!(inputs[0], self.status, "SISA_SEED={}", seed());
    }
}

#[test]
fn back_past_reads_of_the_key() {
    let mut random = random_of(seed(), 16 << 32);
    let mut twins = Twins::new(World::random(&mut random));
    let mut counts = [0; 3];
    for case in 0..CASES {
        let mut keys = Keys::new(random_of(seed(), (17 << 32) + case), twins);
        (0..100).for_each(|_| keys.call());
        (0..3).for_each(|k| counts[k] += keys.counts[k]);
        twins = keys.twins;
    }
    let [one, several, set_since] = counts;
    println!(
        "seed {}: {one} backs past one read of the key, {several} past several, \
         {set_since} with a set since",
        seed()
    );
    assert!(counts.iter().all(|&count| count > 200), "{counts:?}");
}
