//! Loads for both boards, the parts' sizes around what one memory holds.

use crate::call::{Answer, Bytes, Call, Sides};
use crate::ffi::{self, Named};
use crate::make::{board, one_of};
use crate::random::Random;
use crate::world::{Lengths, World};
use crate::{random_of, seed};

const CASES: u64 = 600;

/// W and C, 2W + C mostly 65,534 to 65,538; else each at an edge.
fn sizes(random: &mut Random) -> (usize, usize) {
    let any = random.below(32_769) as usize;
    let w = one_of(random, &[0, 1, 2, 32_767, 32_768, any, any]);
    let sum = 65_534 + random.below(5) as usize;
    let c = match random.below(6) {
        0 => one_of(random, &[0, 1, 65_535, 65_536]),
        _ => sum.saturating_sub(2 * w).min(65_536),
    };
    (w, c)
}

/// A file of such parts: one after the other, or the data part at any place of
/// the file.
fn file(random: &mut Random, w: usize, c: usize) -> (Vec<u8>, usize) {
    let length = 2 * w + c;
    let data = match random.below(2) {
        0 => 16 + 2 * w,
        _ => 16 + random.below(2 * w as u64 + 1) as usize,
    };
    let header = [w, 16, c, data].map(|x| (x as u32).to_le_bytes());
    let mut file = header.concat();
    file.extend((0..length).map(|_| 1 + random.below(255) as u8));
    (file, data)
}

/// Asserts what an accepted load left, byte by byte.
fn check(sides: &mut Sides, board: u8, file: &[u8], w: usize, data: usize, c: usize) {
    let lent = sides.reference.lend(&Lengths::right(0));
    let expected = |parts: &[&[u8]]| {
        let mut memory = parts.concat();
        memory.resize(65_536, 0);
        memory
    };
    let (program, data) = (&file[16..16 + 2 * w], &file[data..data + c]);
    let (of_p, of_d) = match board {
        0 => (expected(&[program]), expected(&[data])),
        _ => (expected(&[]), expected(&[program, data])),
    };
    assert!(lent.program == of_p && lent.memory == of_d);
    assert!(lent.inputs.iter().chain(&*lent.outputs).all(|&x| x == 0));
}

#[test]
fn loads_around_the_size_of_one_memory() {
    let mut random = random_of(seed(), 18 << 32);
    let mut sides = Sides::new(World::random(&mut random));
    // Accepted and refused for the older board, then for the single-memory one.
    let mut counts = [[0; 2]; 2];
    for case in 0..CASES {
        let (w, c) = sizes(&mut random);
        let (file, data) = file(&mut random, w, c);
        let board = board(&mut random);
        sides.change(|lent| {
            lent.program.fill(0xEE);
            lent.memory.fill(0xEE);
            lent.inputs.fill(0xEEEE);
            lent.outputs.fill(0xEEEE);
        });
        let named = Named {
            board,
            locked: 0,
            first: random.word(),
            last: random.word(),
        };
        let call = Call::Load(named, Bytes(file.clone()));
        let answer = sides.call(&call, &Lengths::right(0));
        let at = format!("SISA_SEED={}, load {case}, W {w}, C {c}", seed());
        let Answer::Load(load) = answer.unwrap_or_else(|x| panic!("{at}: {x}")) else {
            panic!("{at}")
        };
        let refused = board != 0 && 2 * w + c > 65_536;
        assert_eq!(load.refusal, if refused { 15 } else { 0 }, "{at}");
        if !refused {
            check(&mut sides, board, &file, w, data, c);
            let ffi::State { board: kept, .. } = load.state;
            assert_eq!(kept, u8::from(board != 0), "{at}");
        }
        counts[usize::from(board != 0)][usize::from(refused)] += 1;
    }
    println!("seed {}: loads by board and refusal: {counts:?}", seed());
    assert!(counts[0][0] > 100 && counts[1].iter().all(|&x| x > 50));
}
