//! Lines: raised at any state, taken from every pending byte, and over programs with
//! EI, DI, RETI, GETIID and a handler.

mod handlers;

use crate::call::{plain_state, Answer, Call};
use crate::ffi;
use crate::make::{board, line, one_of, with_any_lines};
use crate::random::Random;
use crate::steps::{put, random_state};
use crate::twins::Twins;
use crate::world::{Lengths, World};
use crate::{random_of, seed};
use reference::machine::State;
use reference::run::Engine;

#[test]
fn raises_at_any_state() {
    let mut random = random_of(seed(), 20 << 32);
    let mut twins = Twins::new(World::random(&mut random));
    let mut refused = 0;
    for case in 0..20_000_u32 {
        let state = random_state(&mut random, 0);
        let mut state = with_any_lines(&mut random, state);
        state.pc ^= random.below(2) as u16;
        let line = match case {
            0..=255 => case as u8,
            _ => line(&mut random),
        };
        let at = || format!("SISA_SEED={}, raise {case}", seed());
        let answer = twins.answer(&Call::Raise(state, line), &Lengths::right(0), at);
        let Answer::Raise(ffi::Raised { state: after, .. }) = answer else {
            panic!("{answer:?}")
        };
        let bit = if line > 7 { 0 } else { 1 << line };
        let expected = State {
            pending: state.pending | bit,
            ..state
        };
        assert_eq!(plain_state(after), expected);
        assert_eq!(answer.refusal(), if line > 7 { 16 } else { 0 });
        refused += u32::from(line > 7);
    }
    println!("seed {}: 20000 raises, {refused} refused with 16", seed());
}

/// Unassigned, OUT, DIV by R0, LD, ST, IN from port 1, EI, DI, RETI, GETIID, JALR
const WORDS: [u16; 11] = [
    0xF000, 0xA301, 0xB20C, 0x3040, 0x4040, 0xA401, 0xC000, 0xC001, 0xC002, 0xC01B, 0x7240,
];

/// A run by one of the five exports that step, with a journal but for two in so many.
fn call(random: &mut Random, state: State, budget: u32, many: u64) -> Call {
    let engine = one_of(random, &[Engine::Rules, Engine::PAPER_TABLE]);
    match random.below(many) {
        0 => Call::Run(engine, state, budget),
        1 => Call::HostStep(state),
        _ => Call::Journaled(engine, state, budget),
    }
}

/// Asserts the first of the run's steps by the sentence: "the lowest line is taken:
/// its bit clears, its number and PC are kept, PC becomes 0x0100, enable clears".
fn check_taking(before: State, after: State, answer: &ffi::Answer) {
    let k = before.pending.trailing_zeros() as u8;
    let mut expected = before;
    expected.pending &= expected.pending - 1;
    (expected.line, expected.return_address) = (k, before.pc);
    (expected.pc, expected.enabled, expected.n) = (0x0100, 0, before.n + 1);
    expected.journaled = after.journaled;
    assert_eq!(after, expected);
    assert_eq!((answer.ticks, answer.usage.taken), (3, 1));
    let usage = &answer.usage;
    let others = usage.kinds.iter().chain(&usage.reads).chain(&usage.writes);
    assert_eq!(others.sum::<u64>(), 0);
}

/// A state with these lines pending.
fn before_taking(random: &mut Random, pending: u8) -> State {
    let state = with_any_lines(random, State::reset());
    State {
        return_address: state.return_address & 0xFFFE,
        pending,
        pc: one_of(random, &[0, 0x0040, 0x0100, 0xFFFE]),
        board: board(random),
        ..state
    }
}

/// Every pending byte, several enable flags, any word at PC and at 0x0100, budgets
/// that end before and after taking, logs with no place and journals that are full.
#[test]
fn every_pending_byte() {
    let mut random = random_of(seed(), 21 << 32);
    let mut twins = Twins::new(World::random(&mut random));
    // Runs of one taking alone, runs that took two lines, by stop.
    let (mut alone, mut twice, mut stops) = (0, 0, [0; 4]);
    for case in 0..12_000_u32 {
        let state = before_taking(&mut random, case as u8);
        for at in [state.pc, 0x0100, 0x0102, state.pc.wrapping_add(2)] {
            let w = one_of(&mut random, &WORDS);
            twins.change(|lent| put(lent, &State { pc: at, ..state }, w));
        }
        let budget = random.below(7) as u32;
        let lengths = Lengths {
            journal: one_of(&mut random, &[0, 1, 9, 9]),
            ..Lengths::right(random.below(2) as usize)
        };
        let call = call(&mut random, state, budget, 4);
        let at = || format!("SISA_SEED={}, pending {case}", seed());
        let answer = twins.answer(&call, &lengths, at);
        let after = match &answer {
            Answer::Run(run) => run.state,
            Answer::HostStep(state, _) => *state,
            answer => panic!("{answer:?}"),
        };
        let run = answer.of_run().expect("a run");
        let takes = state.enabled != 0 && state.pending != 0;
        if takes && run.steps == 1 {
            check_taking(state, plain_state(after), &run);
            alone += 1;
        }
        assert!(!takes || run.steps == 0 || run.usage.taken > 0);
        twice += u32::from(run.usage.taken > 1);
        stops[usize::from(run.stop)] += 1;
    }
    println!(
        "seed {}: {alone} runs that took a line alone, {twice} that took several, by stop \
         {stops:?}",
        seed()
    );
    assert!(alone > 1_000 && twice > 50 && stops.iter().all(|&x| x > 100));
}
