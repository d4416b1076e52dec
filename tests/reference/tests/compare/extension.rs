//! L6's five operations of edges and of any operands.

use crate::call::Sides;
use crate::make::{board, one_of};
use crate::random::Random;
use crate::steps::{calls, put, Counts};
use crate::world::{Lengths, World};
use crate::{random_of, seed};
use reference::machine::State;

/// MUL, MULH, MULHU, DIV, DIVU
const F: [u16; 5] = [0, 1, 2, 4, 5];

const EDGES: [u16; 16] = [
    0, 1, 2, 3, 7, 0x00FF, 0x0100, 0x0101, 0x7FFE, 0x7FFF, 0x8000, 0x8001, 0xFF00, 0xFFF9, 0xFFFE,
    0xFFFF,
];

/// The word of Rd, Ra, Rb with f.
pub fn word(f: u16, [d, a, b]: [u16; 3]) -> u16 {
    0xB000 + 512 * a + 64 * b + 8 * d + f
}

/// Registers d, a and b for these operands. d is often one of the others; a and b
/// may be one where the operands are alike.
fn registers(random: &mut Random, ra: u16, rb: u16) -> [u16; 3] {
    let [d, a, other] = [0; 3].map(|_| random.below(8) as u16);
    let b = match ra == rb {
        true => one_of(random, &[a, other]),
        false => (a + 1 + other % 7) % 8,
    };
    [one_of(random, &[d, a, b]), a, b]
}

/// Compares all five of these operands by every export that steps.
fn compare(sides: &mut Sides, random: &mut Random, ra: u16, rb: u16, counts: &mut [Counts; 3]) {
    for f in F {
        let parts = registers(random, ra, rb);
        let mut state = State {
            r: [0; 8].map(|_| random.value()),
            pc: random.word() & 0xFFFE,
            n: random.below(u32::MAX.into()) as u32,
            board: board(random),
            ..State::reset()
        };
        state.r[usize::from(parts[1])] = ra;
        state.r[usize::from(parts[2])] = rb;
        let w = word(f, parts);
        sides.change(|lent| put(lent, &state, w));
        for (call, counts) in calls(state).iter().zip(&mut *counts) {
            let answer = sides.run(call, &Lengths::right(1), || {
                format!("SISA_SEED={}, word {w:#06x} at PC", seed())
            });
            counts.take(&answer);
        }
    }
}

#[test]
fn five_operations_of_edges_and_any_operands() {
    let mut random = random_of(seed(), 9 << 32);
    let mut sides = Sides::new(World::random(&mut random));
    let mut counts = [Counts::default(); 3];
    for (ra, rb) in EDGES.iter().flat_map(|ra| EDGES.map(|rb| (*ra, rb))) {
        compare(&mut sides, &mut random, ra, rb, &mut counts);
    }
    for _ in 0..4_000 {
        let (ra, rb) = (random.word(), random.value());
        compare(&mut sides, &mut random, ra, rb, &mut counts);
    }
    println!("seed {}, opcode 11 by export: {counts:?}", seed());
    for of_export in counts {
        of_export.check(5 * (256 + 4_000));
    }
}
