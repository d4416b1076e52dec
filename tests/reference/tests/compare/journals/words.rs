//! One step of every word with a journal, and back.

use crate::call::{plain_state, Answer, Call};
use crate::steps::{put, random_state, Counts, STEPS};
use crate::twins::Twins;
use crate::world::{Lengths, World};
use crate::{random_of, seed};
use reference::machine::State;
use reference::run::Engine;

#[test]
fn one_step_of_every_word_and_back() {
    let mut random = random_of(seed(), 15 << 32);
    let mut twins = Twins::new(World::random(&mut random));
    let mut counts = Counts::default();
    let lengths = Lengths {
        journal: 9,
        ..Lengths::right(1)
    };
    for w in 0..=0xFFFF_u16 {
        let at = || format!("SISA_SEED={}, word {w:#06x} at PC", seed());
        let before = State {
            n: random.below(1 << 31) as u32 + 1,
            ..random_state(&mut random, w)
        };
        twins.change(|lent| put(lent, &before, w));
        let call = Call::Journaled(Engine::Rules, before, 1);
        let Answer::Run(run) = twins.answer(&call, &lengths, at) else {
            panic!("{}", at())
        };
        counts.take(&run.without_state());
        let after = plain_state(run.state);
        assert_eq!(after.journaled, before.journaled + u64::from(run.steps));
        let back = Call::Back(after, run.steps.into());
        let Answer::Back(back) = twins.answer(&back, &lengths, at) else {
            panic!("{}", at())
        };
        assert_eq!(plain_state(back.state), before, "{}", at());
        assert_eq!(back.entries, run.entries, "{}", at());
    }
    println!("seed {}, one word each and back: {counts:?}", seed());
    counts.check(STEPS / 3);
}
