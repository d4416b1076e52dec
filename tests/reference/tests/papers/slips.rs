//! "Slips of the SISA editions": none of them is made here.

use crate::board::{after, after_on, Board};

#[test]
fn n6_is_not_doubled_in_ld_and_st() {
    // LD R1,4(R2) with R2 = 0x0100: the word at 0x0104, not at 0x0108.
    let mut before = Board::at(0, 0x3444, &[(2, 0x0100)]);
    before.d[0x0104..0x0106].copy_from_slice(&[0x34, 0x12]);
    before.d[0x0108..0x010A].copy_from_slice(&[0x78, 0x56]);
    assert_eq!(after_on(&before).s.r[1], 0x1234);
    // ST 4(R2),R1
    let board = after(0, 0x4444, &[(1, 0xABCD), (2, 0x0100)]);
    assert_eq!(board.d[0x0104..0x0106], [0xCD, 0xAB]);
    assert_eq!(board.d[0x0108..0x010A], [0, 0]);
}

#[test]
fn branches_are_from_pc_plus_2() {
    // BZ R0,3 at 0x0020 and BZ R0,-1, which branches to itself.
    assert_eq!(after(0x0020, 0x8003, &[]).s.pc, 0x0028);
    assert_eq!(after(0x0020, 0x80FF, &[]).s.pc, 0x0020);
    // BNZ R0,-128 and BNZ R0,127 around the ends.
    assert_eq!(after(0, 0x8180, &[(0, 5)]).s.pc, 0xFF02);
    assert_eq!(after(0xFFFE, 0x817F, &[(0, 5)]).s.pc, 0x00FE);
}

#[test]
fn jalr_with_a_equal_to_d_reads_first() {
    for r in 0..8_u16 {
        let w = 0x7000 + r * 512 + r * 64;
        let board = after(0x0200, w, &[(usize::from(r), 0x4321)]);
        assert_eq!(board.s.pc, 0x4320);
        assert_eq!(board.s.r[usize::from(r)], 0x0202);
    }
}

#[test]
fn a_shift_of_minus_16_is_not_none() {
    // SHA and SHL R3,R1,R2
    assert_eq!(after(0, 0x029E, &[(1, 0xFFFF), (2, 16)]).s.r[3], 0xFFFF);
    assert_eq!(after(0, 0x029E, &[(1, 0x7FFF), (2, 16)]).s.r[3], 0);
    assert_eq!(after(0, 0x029F, &[(1, 0xFFFF), (2, 16)]).s.r[3], 0);
}

#[test]
fn only_the_low_five_bits_of_rb_are_the_amount() {
    for w in [0x029E, 0x029F] {
        assert_eq!(after(0, w, &[(1, 3), (2, 0xFFE4)]).s.r[3], 0x30);
        assert_eq!(after(0, w, &[(1, 0x30), (2, 0x001C)]).s.r[3], 3);
        assert_eq!(after(0, w, &[(1, 0x1234), (2, 0x0020)]).s.r[3], 0x1234);
    }
}

#[test]
fn an_odd_word_address_is_not_refused() {
    // LD R1,0(R2) and ST 0(R2),R1 with R2 = 0xFFFF: bytes 0xFFFE and 0xFFFF.
    let mut before = Board::at(0, 0x3440, &[(2, 0xFFFF)]);
    before.d[0xFFFE..].copy_from_slice(&[0x11, 0x22]);
    before.d[0] = 0x33;
    assert_eq!(after_on(&before).s.r[1], 0x2211);
    let board = after(0, 0x4440, &[(1, 0x5566), (2, 0xFFFF)]);
    assert_eq!(board.d[0xFFFE..], [0x66, 0x55]);
    assert_eq!(board.d[0], 0);
}
