//! Reading and writing instructions: all words, and all parts at their edges.

use reference::instruction::{read, write, Instruction, Kind};
use reference::machine::{assigned, is_out};

/// One word of each kind, put together by hand from the sheet's formats, with
/// its a, b, d, n.
pub const BY_HAND: [(u16, i32, i32, i32, i32); 34] = [
    (0b0000_101_110_011_000, 5, 6, 3, 0),   // AND R3,R5,R6
    (0b0000_101_110_011_001, 5, 6, 3, 0),   // OR
    (0b0000_101_110_011_010, 5, 6, 3, 0),   // XOR
    (0b0000_101_000_011_011, 5, 0, 3, 0),   // NOT R3,R5
    (0b0000_101_110_011_100, 5, 6, 3, 0),   // ADD
    (0b0000_101_110_011_101, 5, 6, 3, 0),   // SUB
    (0b0000_101_110_011_110, 5, 6, 3, 0),   // SHA
    (0b0000_101_110_011_111, 5, 6, 3, 0),   // SHL
    (0b0001_101_110_011_000, 5, 6, 3, 0),   // CMPLT
    (0b0001_101_110_011_001, 5, 6, 3, 0),   // CMPLE
    (0b0001_101_110_011_011, 5, 6, 3, 0),   // CMPEQ
    (0b0001_101_110_011_100, 5, 6, 3, 0),   // CMPLTU
    (0b0001_101_110_011_101, 5, 6, 3, 0),   // CMPLEU
    (0b0010_101_011_111110, 5, 0, 3, -2),   // ADDI R3,R5,-2
    (0b0011_101_011_111110, 5, 0, 3, -2),   // LD R3,-2(R5)
    (0b0100_101_110_011111, 5, 6, 0, 31),   // ST 31(R5),R6
    (0b0101_101_011_100000, 5, 0, 3, -32),  // LDB R3,-32(R5)
    (0b0110_101_110_111110, 5, 6, 0, -2),   // STB -2(R5),R6
    (0b0111_101_011_000000, 5, 0, 3, 0),    // JALR R3,R5
    (0b1000_101_0_11111110, 5, 0, 0, -2),   // BZ R5,-2
    (0b1000_101_1_10000000, 5, 0, 0, -128), // BNZ R5,-128
    (0b1001_011_0_11111110, 0, 0, 3, -2),   // MOVI R3,-2
    (0b1001_011_1_11111110, 0, 0, 3, 254),  // MOVHI R3,254
    (0b1010_011_0_11111110, 0, 0, 3, 254),  // IN R3,254
    (0b1010_101_1_11111110, 5, 0, 0, 254),  // OUT 254,R5
    (0b1011_101_110_011_000, 5, 6, 3, 0),   // MUL R3,R5,R6
    (0b1011_101_110_011_001, 5, 6, 3, 0),   // MULH
    (0b1011_101_110_011_010, 5, 6, 3, 0),   // MULHU
    (0b1011_101_110_011_100, 5, 6, 3, 0),   // DIV
    (0b1011_101_110_011_101, 5, 6, 3, 0),   // DIVU
    (0b1100_000_000_000_000, 0, 0, 0, 0),   // EI
    (0b1100_000_000_000_001, 0, 0, 0, 0),   // DI
    (0b1100_000_000_000_010, 0, 0, 0, 0),   // RETI
    (0b1100_000_000_011_011, 0, 0, 3, 0),   // GETIID R3
];

fn kind(number: usize) -> Kind {
    Kind::from_number(number as u8).unwrap()
}

#[test]
fn one_word_of_each_kind_by_hand() {
    for (number, &(w, a, b, d, n)) in BY_HAND.iter().enumerate() {
        let x = Instruction {
            kind: kind(number),
            a,
            b,
            d,
            n,
        };
        assert_eq!(read(w), Some(x));
        assert_eq!(write(x), Ok(w));
    }
}

#[test]
fn kinds_are_numbered_in_the_sheet_s_order_then_l6_s_and_l12_s() {
    for number in 0..=255_u8 {
        match Kind::from_number(number) {
            Some(kind) => assert_eq!(kind.number(), number),
            None => assert!(number >= 34),
        }
        assert_eq!(Kind::from_number(number).is_some(), number < 34);
    }
    assert_eq!(Kind::from_number(3), Some(Kind::Not));
    assert_eq!(Kind::from_number(18), Some(Kind::Jalr));
    assert_eq!(Kind::from_number(24), Some(Kind::Out));
    assert_eq!(Kind::from_number(25), Some(Kind::Mul));
    assert_eq!(Kind::from_number(29), Some(Kind::Divu));
    assert_eq!(Kind::from_number(30), Some(Kind::Ei));
    assert_eq!(Kind::from_number(33), Some(Kind::Getiid));
}

/// Of opcode 1 f = 2, 6, 7; of opcode 11 f = 3, 6, 7; of opcode 12 f = 4, 5, 6, 7;
/// opcodes 13 to 15.
pub fn unassigned(w: u16) -> bool {
    match w >> 12 {
        1 => [2, 6, 7].contains(&(w & 7)),
        11 => [3, 6, 7].contains(&(w & 7)),
        12 => (w & 7) >= 4,
        opcode => opcode >= 13,
    }
}

/// DIV or DIVU where Rb is zero.
pub fn zero_divisor(w: u16, r: &[u16; 8]) -> bool {
    w >> 12 == 11 && [4, 5].contains(&(w & 7)) && r[usize::from(w >> 6 & 7)] == 0
}

/// "Writing what was read returns the word with those bits cleared."
pub fn written_back(w: u16) -> u16 {
    match (w >> 12, w & 7) {
        (0, 3) => w & 0xFE3F,
        (7, _) => w & 0xFFC0,
        (12, 0..=2) => w & 0xF007,
        (12, 3) => w & 0xF03F,
        _ => w,
    }
}

#[test]
fn all_words_read_then_written() {
    let mut count = 0;
    for w in 0..=0xFFFF_u16 {
        match read(w) {
            None => {
                assert!(unassigned(w), "{w:04X}");
                count += 1;
            }
            Some(x) => {
                assert!(!unassigned(w), "{w:04X}");
                assert_eq!(write(x), Ok(written_back(w)));
                assert_eq!(read(written_back(w)), Some(x));
                assert_eq!(is_out(w), x.kind == Kind::Out);
            }
        }
        assert_eq!(assigned(w), !unassigned(w));
    }
    assert_eq!(count, 3 * 4_096 + 4_096 / 2 + 2 * 4_096 * 3 / 8);
}

/// Least and greatest of a, b, d, n by kind: "Registers are 0 to 7. n is
/// -32..31 for N6, -128..127 for BZ, BNZ, MOVI, and 0..255 for MOVHI, IN, OUT.
/// Unused parts must be 0."
fn limits(kind: Kind) -> [(i32, i32); 4] {
    const R: (i32, i32) = (0, 7);
    const NO: (i32, i32) = (0, 0);
    match kind {
        Kind::Not | Kind::Jalr => [R, NO, R, NO],
        Kind::Addi | Kind::Ld | Kind::Ldb => [R, NO, R, (-32, 31)],
        Kind::St | Kind::Stb => [R, R, NO, (-32, 31)],
        Kind::Bz | Kind::Bnz => [R, NO, NO, (-128, 127)],
        Kind::Movi => [NO, NO, R, (-128, 127)],
        Kind::Movhi | Kind::In => [NO, NO, R, (0, 255)],
        Kind::Out => [R, NO, NO, (0, 255)],
        Kind::Ei | Kind::Di | Kind::Reti => [NO, NO, NO, NO],
        Kind::Getiid => [NO, NO, R, NO],
        _ => [R, R, R, NO],
    }
}

fn within(part: i32, (least, greatest): (i32, i32)) -> bool {
    least <= part && part <= greatest
}

#[test]
fn every_kind_with_parts_in_and_out_of_range() {
    let registers = [i32::MIN, -1, 0, 1, 5, 7, 8, 255, 256, i32::MAX];
    let numbers = [
        i32::MIN,
        -65_536,
        -256,
        -129,
        -128,
        -33,
        -32,
        -1,
        0,
        1,
        31,
        32,
        63,
        64,
        127,
        128,
        255,
        256,
        65_536,
        i32::MAX,
    ];
    for number in 0..34 {
        let kind = kind(number);
        let [of_a, of_b, of_d, of_n] = limits(kind);
        for a in registers {
            for b in registers {
                for d in registers {
                    for n in numbers {
                        let x = Instruction { kind, a, b, d, n };
                        let fits = within(a, of_a)
                            && within(b, of_b)
                            && within(d, of_d)
                            && within(n, of_n);
                        match write(x) {
                            Ok(w) => {
                                assert!(fits, "{x:?}");
                                assert_eq!(read(w), Some(x));
                            }
                            Err(refusal) => {
                                assert!(!fits, "{x:?}");
                                assert_eq!(refusal, 7);
                            }
                        }
                    }
                }
            }
        }
    }
}

#[test]
fn every_instruction_reads_back_as_itself_and_no_two_share_a_word() {
    let mut seen = vec![false; 65_536];
    let mut count = 0;
    for number in 0..34 {
        let kind = kind(number);
        let [of_a, of_b, of_d, of_n] = limits(kind);
        for a in of_a.0..=of_a.1 {
            for b in of_b.0..=of_b.1 {
                for d in of_d.0..=of_d.1 {
                    for n in of_n.0..=of_n.1 {
                        let x = Instruction { kind, a, b, d, n };
                        let w = write(x).unwrap();
                        assert_eq!(read(w), Some(x));
                        assert!(!seen[usize::from(w)]);
                        seen[usize::from(w)] = true;
                        count += 1;
                    }
                }
            }
        }
    }
    // Opcode 0: 7 of 512 and NOT's 64; 1 and 11: 5 of 512 each; 2 to 6; JALR; 8 to 10;
    // EI, DI, RETI and 8 of GETIID.
    let of_12 = 3 + 8;
    assert_eq!(
        count,
        7 * 512 + 64 + 10 * 512 + 5 * 4_096 + 64 + 3 * 4_096 + of_12
    );
}
