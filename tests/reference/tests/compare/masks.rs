//! The library's masks tried on the library's steps.

use crate::call::{of_library, Answer, Call};
use crate::ffi;
use crate::registers::merged;
use crate::steps::{calls, put, random_state, Counts, STEPS};
use crate::world::{Lengths, World};
use crate::{random_of, seed};
use reference::machine::State;

/// The library's step of the word by this call: the state that it leaves, and
/// the rest of its reply.
fn step(world: &mut World, w: u16, call: &Call) -> (ffi::State, ffi::Answer) {
    let state = call.state().expect("a step");
    put(world.lend(&Lengths::right(0)), &state, w);
    match of_library(call, world, &Lengths::right(1)) {
        Answer::Run(run) => (run.state, run.without_state()),
        Answer::HostStep(state, answer) => (state, answer),
        answer => panic!("{answer:?}"),
    }
}

#[test]
fn registers_outside_the_masks_of_every_word() {
    let seed = seed();
    let mut random = random_of(seed, 6 << 32);
    // The second world is stepped with other registers outside `reads`.
    let mut world = World::random(&mut random);
    let mut second = world.clone();
    let mut counts = Counts::default();
    for w in 0..=0xFFFF_u16 {
        let masks = ffi::read(w);
        for export in 0..3 {
            let state = random_state(&mut random, w);
            let others = [0; 8].map(|_| random.value());
            let r = merged(masks.reads, state.r, others);
            let (left, answer) = step(&mut world, w, &calls(state)[export]);
            let call = &calls(State { r, ..state })[export];
            let (found, other_answer) = step(&mut second, w, call);
            let at = format!("SISA_SEED={seed}, word {w:#06x}, {state:?}, then {call:?}");
            // A zero divisor is stopped before the step.
            let writes = if answer.steps == 0 { 0 } else { masks.writes };
            assert_eq!(left.r, merged(writes, left.r, state.r), "{at}");
            let expected = ffi::State {
                r: merged(writes, left.r, r),
                ..left
            };
            assert_eq!((expected, answer), (found, other_answer), "{at}");
            assert_eq!(world.difference(&second), None, "{at}");
            counts.take(&answer);
        }
    }
    println!("seed {seed}, pairs of one word: {counts:?}");
    counts.check(STEPS);
}
