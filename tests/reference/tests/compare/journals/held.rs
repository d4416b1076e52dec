//! What a journal holds: k, the count, n, the journal's length, PC, the return address
//! and the other lengths at their edges.

use super::{before_loop, endless_loop, put};
use crate::call::{plain_state, Answer, Call};
use crate::make::one_of;
use crate::random::Random;
use crate::twins::Twins;
use crate::world::{Lengths, World, JOURNAL, LOG};
use crate::{random_of, seed};
use reference::machine::State;
use reference::run::Engine;

/// Twins after so many steps with a journal, and the state. Their number is less
/// where the log is full before.
fn stepped(random: &mut Random, steps: u32) -> (Twins, State) {
    let mut twins = Twins::new(World::random(random));
    let words = endless_loop(random);
    twins.change(|lent| put(lent, &words));
    let lengths = Lengths {
        journal: JOURNAL,
        ..Lengths::right(LOG)
    };
    let call = Call::Journaled(Engine::Rules, before_loop(random), steps);
    let at = || format!("SISA_SEED={}", seed());
    match twins.answer(&call, &lengths, at) {
        Answer::Run(run) => (twins, plain_state(run.state)),
        answer => panic!("{answer:?}"),
    }
}

/// A state, lengths and k at their edges. No more is undone than was stepped:
/// where the count is more, the journal lent is shorter than it.
fn edges(random: &mut Random, after: State) -> (State, Lengths, u64) {
    let steps = after.journaled;
    let few = random.below(steps + 1);
    let mut state = after;
    state.journaled = one_of(
        random,
        &[steps, steps, steps, few, 0, steps + 1, 1 << 32, u64::MAX],
    );
    let (count, below) = (state.journaled, state.journaled.saturating_sub(1));
    let n = [after.n, after.n, after.n, 0, count as u32, below as u32];
    state.n = one_of(random, &n);
    let mut lengths = Lengths::right(0);
    let places = [below, count, steps, steps + 1, 0, JOURNAL as u64];
    lengths.journal = one_of(random, &places).min(JOURNAL as u64) as usize;
    if state.journaled > steps {
        lengths.journal = lengths.journal.min(steps as usize);
    }
    match random.below(24) {
        0 => lengths.program = one_of(random, &[0, 65_535, 65_537]),
        1 => lengths.memory = one_of(random, &[0, 65_535, 65_537]),
        2 => lengths.inputs = one_of(random, &[0, 255, 257]),
        3 => lengths.outputs = one_of(random, &[0, 255, 257]),
        4 => state.pc = random.word() | 1,
        5 => state.return_address = random.word() | 1,
        _ => {}
    }
    let held = state.journaled.min(state.n.into());
    let ks = [
        0,
        1,
        few,
        held,
        held + 1,
        state.journaled,
        steps,
        1 << 32,
        u64::MAX,
    ];
    (state, lengths, one_of(random, &ks))
}

/// The refusal, by the papers' sentences.
fn expected(state: &State, lengths: &Lengths, k: u64) -> u8 {
    let Lengths {
        program,
        memory,
        inputs,
        outputs,
        ..
    } = *lengths;
    let right = [program, memory, 256 * inputs, 256 * outputs] == [65_536; 4];
    let shorter = (lengths.journal as u64) < state.journaled;
    let fewer = k > state.journaled || k > u64::from(state.n) || (shorter && k > 0);
    match (right, (state.pc | state.return_address) % 2, fewer) {
        (false, ..) => 1,
        (_, 1, _) => 5,
        (.., true) => 14,
        _ => 0,
    }
}

#[test]
fn what_a_journal_holds() {
    let mut random = random_of(seed(), 13 << 32);
    // By refusal 0, 1, 5, 14.
    let mut counts = [0; 4];
    let mut all = 0;
    for steps in [0, 1, 2, 5, 60, 300, 2_047, 2_048, 2_049, 5_000] {
        let (start, after) = stepped(&mut random, steps);
        let mut twins = start.clone();
        for _ in 0..200 {
            let (state, lengths, k) = edges(&mut random, after);
            let at = || format!("SISA_SEED={}, after {steps} steps", seed());
            let Answer::Back(back) = twins.answer(&Call::Back(state, k), &lengths, at) else {
                panic!("no going back")
            };
            assert_eq!(back.refusal, expected(&state, &lengths, k));
            let place = [0, 1, 5, 14].iter().position(|&x| x == back.refusal);
            counts[place.expect("one of these")] += 1;
            all += u64::from(back.refusal == 0 && k > 1 && k == after.journaled);
            if back.refusal == 0 && k > 0 {
                twins.clone_from(&start);
            }
        }
    }
    println!(
        "seed {}: by refusal 0, 1, 5, 14: {counts:?}, {all} all back",
        seed()
    );
    assert!(counts.iter().all(|&count| count > 60) && all > 30);
}
