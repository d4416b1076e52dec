//! One step of every word, by each export that steps.

use crate::call::{Call, Sides};
use crate::ffi::{self, Lent};
use crate::make::{board, one_of};
use crate::random::Random;
use crate::world::{Lengths, World};
use crate::{random_of, seed};
use reference::machine::{Memories, State};
use reference::run::Engine;

/// A state to step the word from, with no line to take and no byte locked. Ra+SE(N6), a sum or address
/// of opcodes 2 to 6, is often an edge.
pub fn random_state(random: &mut Random, w: u16) -> State {
    let even = random.word() & 0xFFFE;
    let mut r = [0; 8].map(|_| random.value());
    if random.below(3) == 0 {
        let edge = one_of(random, &[0, 1, 0x7FFF, 0x8000, 0xFFFE, 0xFFFF_u16]);
        let se_n6 = ((w % 64) ^ 32).wrapping_sub(32);
        r[usize::from(w >> 9 & 7)] = edge.wrapping_sub(se_n6);
    }
    State {
        r,
        pc: one_of(random, &[even, even, 0, 0xFFFE]),
        n: random.below(u32::MAX.into()) as u32,
        journaled: random.below(9),
        board: board(random),
        ..no_line_to_take(random)
    }
}

/// Lines are pending or enabled, not both, and a range is one without bytes.
fn no_line_to_take(random: &mut Random) -> State {
    let any = random.word() as u8;
    let (locked, first_locked, last_locked) = one_of(
        random,
        &[(0, 0, 0), (0, 0, 0xFFFF), (1, 1, 0), (255, 0xFFFF, 0xFFFE)],
    );
    let (enabled, pending) = one_of(random, &[(0, 0), (0, any), (1, 0), (any, 0)]);
    State {
        enabled,
        pending,
        line: random.word() as u8,
        return_address: random.word() & 0xFFFE,
        locked,
        first_locked,
        last_locked,
        ..State::reset()
    }
}

/// The steps of all words by three exports, where no divisor is zero.
/// Unassigned: opcodes 13 to 15, 3 of 8 values of f in opcodes 1 and 11, and 4 in
/// opcode 12.
pub const STEPS: u32 = 3 * (65_536 - 3 * 4_096 - 2 * 3 * 512 - 4 * 512);

/// What calls of one word replied.
#[derive(Clone, Copy, Debug, Default)]
pub struct Counts {
    calls: u32,
    steps: u32,
    zero_divisors: u32,
}

impl Counts {
    pub fn take(&mut self, answer: &ffi::Answer) {
        self.calls += 1;
        self.steps += answer.steps;
        self.zero_divisors += u32::from(answer.stop == 3);
    }

    /// Asserts that there were so many steps, but for those that a zero divisor
    /// stopped, and that some were.
    pub fn check(&self, steps: u32) {
        assert_eq!(self.steps + self.zero_divisors, steps, "{self:?}");
        assert!(self.zero_divisors > steps / 2_000, "{self:?}");
    }
}

/// One step from this state by each export that steps.
pub fn calls(state: State) -> [Call; 3] {
    [
        Call::Run(Engine::Rules, state, 1),
        Call::Run(Engine::PAPER_TABLE, state, 1),
        Call::HostStep(state),
    ]
}

/// Puts the word at PC of the memory that the board fetches from, and at input 0
/// what a read of the key clears.
pub fn put(lent: Lent, state: &State, w: u16) {
    let at = usize::from(state.pc);
    let memory = match state.memories() {
        Memories::Two => lent.program,
        Memories::Single => lent.memory,
    };
    memory[at..at + 2].copy_from_slice(&w.to_le_bytes());
    lent.inputs[0] = w | 1;
}

#[test]
fn one_step_of_every_word() {
    let seed = seed();
    let mut random = random_of(seed, 3 << 32);
    let mut sides = Sides::new(World::random(&mut random));
    let mut counts = Counts::default();
    for w in 0..=0xFFFF_u16 {
        for export in 0..3 {
            let state = random_state(&mut random, w);
            let call = &calls(state)[export];
            sides.change(|lent| put(lent, &state, w));
            let answer = sides.run(call, &Lengths::right(1), || {
                format!("SISA_SEED={seed}, word {w:#06x} at PC")
            });
            counts.take(&answer);
        }
    }
    println!("seed {seed}, one word each: {counts:?}");
    counts.check(STEPS);
}
