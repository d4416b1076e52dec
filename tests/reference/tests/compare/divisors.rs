//! Runs that meet a zero divisor: first, last and in the middle, with budgets
//! that end just before and logs that are just full.

use crate::call::{Call, Sides};
use crate::extension::word;
use crate::make::one_of;
use crate::random::Random;
use crate::steps::put;
use crate::world::{Lengths, World, LOG};
use crate::{random_of, seed};
use reference::machine::State;
use reference::run::Engine;

/// The divisor; no word of a lead writes it.
const DIVISOR: usize = 2;

/// Words that go on to the next: OUT, each operation of opcode 11 by R7, which is
/// never zero, an addition and a store. They write R3 to R6.
fn lead_word(random: &mut Random) -> u16 {
    let d = 3 + random.below(4) as u16;
    let a = random.below(8) as u16;
    let f = one_of(random, &[0, 1, 2, 4, 5]);
    match random.below(6) {
        0 | 1 => 0xA100 + 512 * a + random.below(256) as u16,
        2 | 3 => word(f, [d, a, 7]),
        4 => 0x2000 + 512 * a + 64 * d + random.below(64) as u16,
        _ => 0x4000 + 512 * a + random.below(512) as u16,
    }
}

fn is_out(w: u16) -> bool {
    w >> 8 & 0xF1 == 0xA1
}

/// Some words, and a zero divisor after them.
struct Program {
    lead: Vec<u16>,
    division: u16,
}

impl Program {
    fn random(random: &mut Random) -> Program {
        let any = random.below(60) as usize;
        let length = one_of(random, &[0, 0, 1, 2, any, any]);
        let registers = [
            random.below(8) as u16,
            random.below(8) as u16,
            DIVISOR as u16,
        ];
        Program {
            lead: (0..length).map(|_| lead_word(random)).collect(),
            division: word(one_of(random, &[4, 5]), registers),
        }
    }

    /// Puts it before this address, where the division then is, around address 0
    /// where it must; where it begins.
    fn put(&self, sides: &mut Sides, last: u16) -> u16 {
        let first = last.wrapping_sub(2 * self.lead.len() as u16);
        for (k, &w) in (0..).zip(self.lead.iter().chain([&self.division])) {
            let at = State {
                pc: first.wrapping_add(2 * k),
                ..State::reset()
            };
            sides.change(|lent| put(lent, &at, w));
        }
        first
    }

    /// Stop, steps and entries of a run from its begin.
    fn outcome(&self, budget: u32, places: usize) -> (u8, u32, u64) {
        let (mut steps, mut entries) = (0, 0);
        for &w in &self.lead {
            if steps == budget {
                return (0, steps, entries);
            }
            if is_out(w) {
                if entries == places as u64 {
                    return (2, steps, entries);
                }
                entries += 1;
            }
            steps += 1;
        }
        let stop = if steps == budget { 0 } else { 3 };
        (stop, steps, entries)
    }
}

/// A budget about the steps before the division, and places about the entries.
fn budget_and_places(random: &mut Random, program: &Program) -> (u32, usize) {
    let steps = program.lead.len() as u32;
    let entries = program.lead.iter().filter(|&&w| is_out(w)).count();
    let budgets = [0, steps.saturating_sub(1), steps, steps + 1, 2_000];
    let places = [0, entries.saturating_sub(1), entries, entries, LOG];
    (one_of(random, &budgets), one_of(random, &places))
}

/// Any state before the program, the divisor zero.
fn random_state(random: &mut Random, pc: u16) -> State {
    let mut r = [0; 8].map(|_| random.value());
    r[DIVISOR] = 0;
    r[7] = r[7].max(1);
    State {
        r,
        pc,
        n: random.below(1 << 31) as u32,
        ..State::reset()
    }
}

#[test]
fn runs_that_meet_a_zero_divisor() {
    let mut random = random_of(seed(), 10 << 32);
    let mut sides = Sides::new(World::random(&mut random));
    let at = |case: u32| move || format!("SISA_SEED={}, case {case} of the divisors", seed());
    // By export and stop.
    let mut stops = [[0; 4]; 3];
    for case in 0..12_000 {
        let program = Program::random(&mut random);
        let any = random.word() & 0xFFFE;
        let pc = program.put(&mut sides, one_of(&mut random, &[any, 0, 2, 0xFFFE]));
        let state = random_state(&mut random, pc);
        let (budget, places) = budget_and_places(&mut random, &program);
        let export = case as usize % 3;
        let (call, budget) = match export {
            0 => (Call::Run(Engine::Rules, state, budget), budget),
            1 => (Call::Run(Engine::PAPER_TABLE, state, budget), budget),
            _ => (Call::HostStep(state), 1),
        };
        let answer = sides.run(&call, &Lengths::right(places), at(case));
        let found = (answer.stop, answer.steps, answer.entries);
        assert_eq!(found, program.outcome(budget, places), "{}", at(case)());
        stops[export][usize::from(answer.stop)] += 1;
    }
    println!("seed {}: by export and stop: {stops:?}", seed());
    for of_export in stops {
        assert!([0, 2, 3].iter().all(|&stop| of_export[stop] > 100));
    }
}
