//! Reading all words, writing all kinds.

use crate::ffi;
use crate::make::one_of;
use crate::random::Random;
use crate::{random_of, seed};
use reference::instruction::{read, write_numbered, Instruction, Kind};
use reference::masks::masks;

fn read_by_reference(w: u16) -> ffi::Instruction {
    let (assigned, x) = match read(w) {
        Some(x) => (1, x),
        // All zero; AND is kind 0.
        None => (
            0,
            Instruction {
                kind: Kind::And,
                a: 0,
                b: 0,
                d: 0,
                n: 0,
            },
        ),
    };
    let masks = masks(w);
    ffi::Instruction {
        assigned,
        kind: x.kind.number(),
        a: x.a as u8,
        b: x.b as u8,
        d: x.d as u8,
        n: x.n as i16,
        reads: masks.reads,
        writes: masks.writes,
    }
}

fn write_by_reference(kind: u8, a: u8, b: u8, d: u8, n: i16) -> ffi::Word {
    let written = write_numbered(kind, a.into(), b.into(), d.into(), n.into());
    ffi::Word {
        refusal: written.err().unwrap_or(0),
        word: written.unwrap_or(0),
    }
}

/// Compares one call; whether it was accepted.
fn compare_write(kind: u8, a: u8, b: u8, d: u8, n: i16) -> bool {
    let expected = write_by_reference(kind, a, b, d, n);
    let found = ffi::write(kind, a, b, d, n);
    assert_eq!(
        expected, found,
        "reference, library: write of kind {kind}, a {a}, b {b}, d {d}, n {n}"
    );
    expected.refusal == 0
}

#[test]
fn all_words_read() {
    for w in 0..=0xFFFF_u16 {
        assert_eq!(
            read_by_reference(w),
            ffi::read(w),
            "reference, library: read of {w:#06x}"
        );
    }
    println!("65536 words read");
}

#[test]
fn all_words_read_and_written() {
    for w in 0..=0xFFFF_u16 {
        let x = ffi::read(w);
        if x.assigned == 1 {
            assert!(compare_write(x.kind, x.a, x.b, x.d, x.n), "{w:#06x}");
        }
    }
}

#[test]
fn all_kinds_written_with_parts_at_their_edges() {
    const REGISTERS: [u8; 7] = [0, 1, 5, 7, 8, 128, 255];
    const NUMBERS: [i16; 21] = [
        i16::MIN,
        -257,
        -256,
        -255,
        -129,
        -128,
        -33,
        -32,
        -1,
        0,
        1,
        31,
        32,
        63,
        64,
        127,
        128,
        255,
        256,
        257,
        i16::MAX,
    ];
    let (mut calls, mut accepted) = (0_u64, 0_u64);
    for kind in 0..=255 {
        for (a, b) in REGISTERS.iter().flat_map(|a| REGISTERS.map(|b| (*a, b))) {
            for (d, n) in REGISTERS.iter().flat_map(|d| NUMBERS.map(|n| (*d, n))) {
                calls += 1;
                accepted += u64::from(compare_write(kind, a, b, d, n));
            }
        }
    }
    println!("{calls} instructions at edges written, {accepted} accepted");
    assert!(accepted > 1_000);
}

/// A part that is often a register, or 0.
fn part(random: &mut Random) -> u8 {
    match random.below(8) {
        0 => random.word() as u8,
        1..=4 => random.below(8) as u8,
        _ => 0,
    }
}

#[test]
fn all_kinds_written_with_random_parts() {
    let seed = seed();
    let mut random = random_of(seed, 1 << 32);
    let mut accepted = [0_u64; 34];
    for kind in 0..=255_u8 {
        for _ in 0..4_000 {
            let (a, b, d) = (part(&mut random), part(&mut random), part(&mut random));
            let limit = one_of(&mut random, &[1, 40, 300, 65_536]);
            let n = (random.below(limit) as i64 - limit as i64 / 2) as i16;
            if compare_write(kind, a, b, d, n) {
                accepted[usize::from(kind)] += 1;
            }
        }
    }
    println!("1024000 random instructions written, by kind accepted: {accepted:?}");
    assert!(accepted.iter().all(|&count| count > 20));
}
