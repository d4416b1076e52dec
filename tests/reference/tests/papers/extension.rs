//! L6's five operations, with numbers worked by hand or in another way than the
//! source. Sentences in quotation marks are that request's.

use crate::board::{after, after_on, Board, ENGINES};
use crate::random::Random;
use reference::machine::extension;

/// MUL, MULH, MULHU, DIV, DIVU
const F: [u16; 5] = [0, 1, 2, 4, 5];

/// The word of Rd, Ra, Rb with f.
pub fn word(f: u16, d: u16, a: u16, b: u16) -> u16 {
    0b1011_000_000_000_000 + a * 512 + b * 64 + d * 8 + f
}

/// R3 after each of the five of R1 and R2, by all engines; None where no step is
/// possible.
fn five(ra: u16, rb: u16) -> [Option<u16>; 5] {
    F.map(|f| {
        let registers = [(1, ra), (2, rb), (3, 0x5A5A)];
        let before = Board::at(0x0100, word(f, 3, 1, 2), &registers);
        if rb == 0 && f >= 4 {
            return none_steps(&before);
        }
        let board = after_on(&before);
        assert_eq!((board.s.pc, board.s.n), (0x0102, 1));
        assert_eq!((board.s.r[1], board.s.r[2]), (ra, rb));
        Some(board.s.r[3])
    })
}

/// Asserts that no engine can step from here.
fn none_steps(before: &Board) -> Option<u16> {
    for engine in ENGINES {
        let mut board = before.clone();
        assert_eq!(board.step(engine), None);
        assert!(board == *before);
    }
    None
}

#[test]
fn edges_by_hand() {
    // Ra, Rb, then MUL, MULH, MULHU, DIV, DIVU
    for (ra, rb, expected) in [
        (0, 1, [0, 0, 0, 0, 0]),
        (0, 0x7FFF, [0, 0, 0, 0, 0]),
        (0, 0x8000, [0, 0, 0, 0, 0]),
        (0, 0xFFFF, [0, 0, 0, 0, 0]),
        (1, 1, [1, 0, 0, 1, 1]),
        (1, 0x7FFF, [0x7FFF, 0, 0, 0, 0]),
        (1, 0x8000, [0x8000, 0xFFFF, 0, 0, 0]),
        (1, 0xFFFF, [0xFFFF, 0xFFFF, 0, 0xFFFF, 0]),
        (0x7FFF, 1, [0x7FFF, 0, 0, 0x7FFF, 0x7FFF]),
        (0x7FFF, 0x7FFF, [0x0001, 0x3FFF, 0x3FFF, 1, 1]),
        (0x7FFF, 0x8000, [0x8000, 0xC000, 0x3FFF, 0, 0]),
        (0x7FFF, 0xFFFF, [0x8001, 0xFFFF, 0x7FFE, 0x8001, 0]),
        (0x8000, 1, [0x8000, 0xFFFF, 0, 0x8000, 0x8000]),
        (0x8000, 0x7FFF, [0x8000, 0xC000, 0x3FFF, 0xFFFF, 1]),
        (0x8000, 0x8000, [0x0000, 0x4000, 0x4000, 1, 1]),
        // "so 0x8000 by 0xFFFF is 0x8000"
        (0x8000, 0xFFFF, [0x8000, 0x0000, 0x7FFF, 0x8000, 0]),
        (0xFFFF, 1, [0xFFFF, 0xFFFF, 0, 0xFFFF, 0xFFFF]),
        (0xFFFF, 0x7FFF, [0x8001, 0xFFFF, 0x7FFE, 0, 2]),
        (0xFFFF, 0x8000, [0x8000, 0x0000, 0x7FFF, 0, 1]),
        (0xFFFF, 0xFFFF, [0x0001, 0x0000, 0xFFFE, 1, 1]),
        (100, 7, [700, 0, 0, 14, 14]),
        (0x1234, 0x0100, [0x3400, 0x0012, 0x0012, 0x0012, 0x0012]),
        // "DIV rounds toward zero": -7 by 2, 7 by -2, -7 by -2
        (0xFFF9, 2, [0xFFF2, 0xFFFF, 1, 0xFFFD, 0x7FFC]),
        (7, 0xFFFE, [0xFFF2, 0xFFFF, 6, 0xFFFD, 0]),
        (0xFFF9, 0xFFFE, [14, 0, 0xFFF7, 3, 0]),
    ] {
        assert_eq!(five(ra, rb), expected.map(Some), "{ra:04X} {rb:04X}");
    }
    for ra in [0, 1, 0x7FFF, 0x8000, 0xFFFF] {
        let products = [Some(0), Some(0), Some(0), None, None];
        assert_eq!(five(ra, 0), products, "{ra:04X}");
    }
}

/// Both halves of the unsigned product, a bit of `rb` at a time.
fn product_by_bits(ra: u16, rb: u16) -> (u16, u16) {
    let (mut low, mut high) = (0_u16, 0_u16);
    for bit in (0..16).rev() {
        high = high << 1 | low >> 15;
        low <<= 1;
        if rb >> bit & 1 == 1 {
            let (sum, carry) = low.overflowing_add(ra);
            low = sum;
            high += u16::from(carry);
        }
    }
    (low, high)
}

/// The unsigned quotient, a bit at a time; `rb` isn't 0.
fn quotient_by_bits(ra: u16, rb: u16) -> u16 {
    let (mut rest, mut quotient) = (0_u32, 0);
    for bit in (0..16).rev() {
        rest = rest << 1 | u32::from(ra >> bit & 1);
        quotient <<= 1;
        if rest >= u32::from(rb) {
            rest -= u32::from(rb);
            quotient += 1;
        }
    }
    quotient
}

fn negative(x: u16) -> bool {
    x >= 0x8000
}

/// The magnitude of a signed number; that of 0x8000 is 0x8000.
fn magnitude(x: u16) -> u16 {
    if negative(x) {
        x.wrapping_neg()
    } else {
        x
    }
}

/// All five: the signed high half is the unsigned one less the other operand for
/// each that is negative, the signed quotient that of the magnitudes.
fn five_by_bits(ra: u16, rb: u16) -> [Option<u16>; 5] {
    let (low, high) = product_by_bits(ra, rb);
    let mut signed = high;
    for (x, other) in [(ra, rb), (rb, ra)] {
        signed = signed.wrapping_sub(if negative(x) { other } else { 0 });
    }
    let quotients = match rb {
        0 => [None, None],
        _ => {
            let of_magnitudes = quotient_by_bits(magnitude(ra), magnitude(rb));
            let quotient = match negative(ra) == negative(rb) {
                true => of_magnitudes,
                false => of_magnitudes.wrapping_neg(),
            };
            [Some(quotient), Some(quotient_by_bits(ra, rb))]
        }
    };
    let [div, divu] = quotients;
    [Some(low), Some(signed), Some(high), div, divu]
}

const EDGES: [u16; 10] = [0, 1, 2, 3, 0x00FF, 0x7FFF, 0x8000, 0x8001, 0xFFFE, 0xFFFF];

#[test]
fn every_value_with_edges() {
    let check = |ra: u16, rb: u16| {
        let found = F.map(|f| extension(f.into(), ra, rb));
        assert_eq!(found, five_by_bits(ra, rb), "{ra:04X} {rb:04X}");
    };
    for edge in EDGES {
        for any in 0..=0xFFFF {
            check(any, edge);
            check(edge, any);
        }
    }
    for f in [3, 6, 7] {
        assert_eq!(extension(f, 6, 3), None);
    }
}

#[test]
fn random_operands() {
    let mut random = Random::new(0xE87E);
    for _ in 0..1_000 {
        let (ra, rb) = (random.value(), random.value());
        assert_eq!(five(ra, rb), five_by_bits(ra, rb), "{ra:04X} {rb:04X}");
    }
}

#[test]
fn operands_are_read_before_the_result_is_written() {
    // DIV R2,R1,R2; DIVU R1,R1,R2; MUL R4,R4,R4; DIV R4,R4,R4
    assert_eq!(after(0, word(4, 2, 1, 2), &[(1, 60), (2, 7)]).s.r[2], 8);
    assert_eq!(after(0, word(5, 1, 1, 2), &[(1, 60), (2, 7)]).s.r[1], 8);
    assert_eq!(after(0, word(0, 4, 4, 4), &[(4, 300)]).s.r[4], 24_464);
    assert_eq!(after(0, word(4, 4, 4, 4), &[(4, 0x8000)]).s.r[4], 1);
}
