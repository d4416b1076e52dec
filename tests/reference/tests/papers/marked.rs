//! "Marked cases", (a) to (l), and the field rules they speak of.

use crate::board::{after, after_on, Board};
use reference::instruction::{read, write, Instruction, Kind};

fn three(kind: Kind, d: i32, a: i32, b: i32) -> Instruction {
    Instruction {
        kind,
        a,
        b,
        d,
        n: 0,
    }
}

#[test]
fn a_sha_r7_r4_r1_is_0x087e() {
    let sha = three(Kind::Sha, 7, 4, 1);
    assert_eq!(write(sha), Ok(0x087E));
    assert_eq!(read(0x087E), Some(sha));
}

#[test]
fn b_cmpleu_r3_r1_r2_is_0x129d() {
    let cmpleu = three(Kind::Cmpleu, 3, 1, 2);
    assert_eq!(write(cmpleu), Ok(0x129D));
    assert_eq!(read(0x129D), Some(cmpleu));
}

#[test]
fn c_movi_then_movhi_leave_r5() {
    let mut board = after_on(&Board::with(&[0x9AF6, 0x9B3A]));
    assert_eq!(board.s.r[5], 0xFFF6);
    board = after_on(&board);
    assert_eq!(board.s.r, [0, 0, 0, 0, 0, 0x3AF6, 0, 0]);
    assert_eq!((board.s.pc, board.s.n), (4, 2));
}

#[test]
fn d_addi_of_minus_one_gives_0xffff() {
    let board = after(0, 0x24BF, &[(2, 0)]);
    assert_eq!(board.s.r[2], 0xFFFF);
}

#[test]
fn e_bnz_branches_from_pc_plus_2() {
    assert_eq!(after(4, 0x85FD, &[(2, 1)]).s.pc, 0);
}

#[test]
fn f_jalr_reads_before_it_writes() {
    let board = after(0x0010, 0x7240, &[(1, 0x0101)]);
    assert_eq!(board.s.pc, 0x0100);
    assert_eq!(board.s.r[1], 0x0012);
}

#[test]
fn g_ld_clears_bit_0_and_does_not_double() {
    let mut before = Board::at(0, 0x3043, &[(0, 0)]);
    for at in 0..16 {
        before.d[at] = 0xA0 + at as u8;
    }
    assert_eq!(after_on(&before).s.r[1], 0xA3A2);
}

#[test]
fn h_shift_by_minus_16() {
    // SHA R3,R1,R2 and SHL R3,R1,R2
    assert_eq!(after(0, 0x029E, &[(1, 0x8000), (2, 0x0010)]).s.r[3], 0xFFFF);
    assert_eq!(after(0, 0x029F, &[(1, 0x8000), (2, 0x0010)]).s.r[3], 0);
}

#[test]
fn i_shift_of_1_by_0x002f() {
    assert_eq!(after(0, 0x029E, &[(1, 1), (2, 0x002F)]).s.r[3], 0x8000);
    assert_eq!(after(0, 0x029F, &[(1, 1), (2, 0x002F)]).s.r[3], 0x8000);
}

#[test]
fn j_0x8000_against_0x7fff() {
    // CMPLT R3,R1,R2 and CMPLTU R3,R1,R2
    let registers = [(1, 0x8000), (2, 0x7FFF), (3, 9)];
    assert_eq!(after(0, 0x1298, &registers).s.r[3], 1);
    assert_eq!(after(0, 0x129C, &registers).s.r[3], 0);
}

#[test]
fn k_ldb_of_0x80() {
    // LDB R1,3(R0)
    let mut before = Board::at(0, 0x5043, &[]);
    before.d[3] = 0x80;
    assert_eq!(after_on(&before).s.r[1], 0xFF80);
}

#[test]
fn l_bz_not_taken_at_0xfffe() {
    assert_eq!(after(0xFFFE, 0x8005, &[(0, 1)]).s.pc, 0);
}
