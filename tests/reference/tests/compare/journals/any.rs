//! Going back over journals of any numbers, by the library alone: the coding is
//! its own, so that only what any coding does is known.

use super::{before_loop, endless_loop, put};
use crate::call::{header_state, of_library, plain_state, Answer, Call};
use crate::ffi::{self, Back};
use crate::make::{board, one_of, with_any_range};
use crate::random::Random;
use crate::world::{touched, Lengths, World, LOG};
use crate::{random_of, seed};
use reference::machine::State;
use reference::run::Engine;

/// How many differ.
fn changed<T: PartialEq>(before: &[T], after: &[T]) -> u64 {
    let pairs = before.iter().zip(after);
    pairs.filter(|(x, y)| x != y).count() as u64
}

/// Fills so many places: with any numbers, or with a run's entries, some of them
/// with a few bits changed or exchanged.
fn fill(random: &mut Random, world: &mut World, places: usize) {
    let lengths = Lengths {
        journal: places,
        ..Lengths::right(LOG)
    };
    if random.below(2) == 0 {
        let (_, journal) = world.lend_with_journal(&lengths);
        return journal.fill_with(|| random.next());
    }
    let words = endless_loop(random);
    put(world.lend(&Lengths::right(0)), &words);
    let call = Call::Journaled(Engine::Rules, before_loop(random), places as u32);
    of_library(&call, world, &lengths);
    let (_, journal) = world.lend_with_journal(&lengths);
    for _ in 0..places / 2 {
        let [at, other] = [0; 2].map(|_| random.below(places as u64) as usize);
        match random.below(4) {
            0 => journal[at] = random.next(),
            1 => journal.swap(at, other),
            _ => journal[at] ^= 1 << random.below(64),
        }
    }
}

/// Any state, whose count is that of the places, one more, or few.
fn any_state(random: &mut Random, places: u64, few: u64) -> State {
    let before = before_loop(random);
    let state = State {
        r: before.r.map(|_| random.value()),
        journaled: one_of(random, &[places, few, few, places + 1]),
        n: one_of(random, &[before.n, before.n, few as u32]),
        pc: one_of(random, &[0, 2, 0xFFFE, 0x1234, 0x1235]),
        board: board(random),
        pending: random.word() as u8,
        return_address: one_of(random, &[0, 2, 0x4320, 0x4321]),
        ..before
    };
    with_any_range(random, state)
}

/// Whether the journal holds k steps.
fn holds(state: &State, places: usize, k: u64) -> bool {
    let shorter = (places as u64) < state.journaled;
    k == 0 || (!shorter && k <= state.journaled && k <= u64::from(state.n))
}

/// What is so of any reply; the steps gone back.
fn check(state: State, k: u64, places: usize, back: &Back) -> u64 {
    let right = if holds(&state, places, k) { 0 } else { 14 };
    let odd = (state.pc | state.return_address) % 2 == 1;
    let expected = if odd { 5 } else { right };
    assert_eq!(back.refusal, expected);
    if back.refusal != 0 {
        assert_eq!((back.state, back.entries), (header_state(state), 0));
        return 0;
    }
    assert_eq!(u64::from(back.state.n), u64::from(state.n) - k);
    assert_eq!(back.state.journaled, state.journaled - k);
    assert!(back.entries <= k);
    assert!(changed(&state.r, &back.state.r) <= k);
    assert_eq!(back.state.board, state.board);
    let range = |s: ffi::State| (s.locked, s.first_locked, s.last_locked);
    assert_eq!(range(back.state), range(header_state(state)));
    // Lines that are pending stay.
    assert_eq!(back.state.pending & state.pending, state.pending);
    k
}

/// What is so of what any call leaves: D changes in at most two bytes a step, O in
/// at most one port an entry fallen away, I at port 0, all else in nothing.
fn check_left(before: &World, after: &World, gone: u64, back: &Back) {
    let [mut before, mut after] = [before, after].map(World::clone);
    assert_eq!(touched(before.journal(), after.journal(), 0..0), None);
    let right = Lengths::right(0);
    let (was, left) = (before.lend(&right), after.lend(&right));
    assert!(changed(was.memory, left.memory) <= 2 * gone);
    assert!(changed(was.outputs, left.outputs) <= back.entries);
    was.memory.copy_from_slice(left.memory);
    was.outputs.copy_from_slice(left.outputs);
    was.inputs[0] = left.inputs[0];
    assert_eq!(before.difference(&after), None);
}

#[test]
fn journals_of_any_numbers() {
    let mut random = random_of(seed(), 14 << 32);
    let mut world = World::random(&mut random);
    // Steps gone back, refusals, odd PCs left, entries fallen away.
    let (mut gone, mut refused, mut odd, mut fallen) = (0, 0, 0, 0);
    for case in 0..4_000 {
        let any = random.below(300) as usize;
        let places = one_of(&mut random, &[0, 1, 2, 9, any, any, any, 2_500]);
        fill(&mut random, &mut world, places);
        let few = random.below(places as u64 + 1);
        let state = any_state(&mut random, places as u64, few);
        let k = one_of(
            &mut random,
            &[0, 1, few, state.journaled, state.journaled + 1],
        );
        let before = world.clone();
        let lengths = Lengths {
            journal: places,
            ..Lengths::right(0)
        };
        let Answer::Back(back) = of_library(&Call::Back(state, k), &mut world, &lengths) else {
            panic!("SISA_SEED={}, case {case}", seed())
        };
        let steps = check(state, k, places, &back);
        check_left(&before, &world, steps, &back);
        gone += steps;
        refused += u64::from(back.refusal != 0);
        odd += u64::from(plain_state(back.state).pc % 2 == 1 && back.refusal == 0);
        fallen += back.entries;
    }
    println!(
        "seed {}: {gone} entries of any numbers undone, {refused} refusals, {odd} odd PCs, \
         {fallen} entries fallen away",
        seed()
    );
    assert!(gone > 100_000 && refused > 300 && fallen > 100);
}
