//! Each rule, with numbers worked by hand or in another way than the source.

use crate::board::{after, after_on, Board, ENGINES};
use reference::machine::{comparison, operation};

/// R3 after an opcode 0 or 1 word with f, of R1 and R2.
fn three(opcode: u16, f: u16, ra: u16, rb: u16) -> u16 {
    let w = opcode * 4_096 + 1 * 512 + 2 * 64 + 3 * 8 + f;
    let board = after(0x0100, w, &[(1, ra), (2, rb), (3, 0x5A5A)]);
    assert_eq!((board.s.pc, board.s.n), (0x0102, 1));
    assert_eq!((board.s.r[1], board.s.r[2]), (ra, rb));
    board.s.r[3]
}

#[test]
fn opcode_0_bitwise_and_sums() {
    assert_eq!(three(0, 0, 0xF0F0, 0xFF00), 0xF000);
    assert_eq!(three(0, 1, 0xF0F0, 0xFF00), 0xFFF0);
    assert_eq!(three(0, 2, 0xF0F0, 0xFF00), 0x0FF0);
    assert_eq!(three(0, 3, 0xF0F0, 0xFF00), 0x0F0F);
    assert_eq!(three(0, 4, 0xFFFF, 2), 1);
    assert_eq!(three(0, 4, 0x7FFF, 1), 0x8000);
    assert_eq!(three(0, 5, 1, 2), 0xFFFF);
    assert_eq!(three(0, 5, 0x8000, 1), 0x7FFF);
}

/// One place at a time, as a shift register would.
fn shift_by_places(ra: u16, rb: u16, fill_with_bit_15: bool) -> u16 {
    let low_5 = rb & 0x1F;
    let mut x = ra;
    if low_5 < 16 {
        for _ in 0..low_5 {
            x = (x & 0x7FFF) << 1;
        }
    } else {
        for _ in 0..32 - low_5 {
            let fill = if fill_with_bit_15 { x & 0x8000 } else { 0 };
            x = (x >> 1) | fill;
        }
    }
    x
}

#[test]
fn shifts_by_every_amount() {
    let values = [
        0, 1, 2, 0x1234, 0x5555, 0x7FFF, 0x8000, 0x8001, 0xAAAA, 0xFFFF,
    ];
    for ra in values {
        for low in 0..32_u16 {
            for rest in [0, 0x0020, 0x8000, 0xFFE0] {
                let rb = rest + low;
                assert_eq!(three(0, 6, ra, rb), shift_by_places(ra, rb, true));
                assert_eq!(three(0, 7, ra, rb), shift_by_places(ra, rb, false));
            }
        }
    }
}

#[test]
fn shifts_of_every_value() {
    for ra in 0..=0xFFFF_u16 {
        for rb in 0..32_u16 {
            assert_eq!(operation(6, ra, rb), shift_by_places(ra, rb, true));
            assert_eq!(operation(7, ra, rb), shift_by_places(ra, rb, false));
        }
    }
}

#[test]
fn opcode_1_comparisons() {
    // ra, rb, then CMPLT, CMPLE, CMPEQ, CMPLTU, CMPLEU
    let rows = [
        (5, 5, [0, 1, 1, 0, 1]),
        (4, 5, [1, 1, 0, 1, 1]),
        (5, 4, [0, 0, 0, 0, 0]),
        (0x8000, 0x7FFF, [1, 1, 0, 0, 0]),
        (0x7FFF, 0x8000, [0, 0, 0, 1, 1]),
        (0xFFFF, 0, [1, 1, 0, 0, 0]),
        (0, 0xFFFF, [0, 0, 0, 1, 1]),
        (0x8000, 0xFFFF, [1, 1, 0, 1, 1]),
        (0xFFFF, 0xFFFF, [0, 1, 1, 0, 1]),
    ];
    for (ra, rb, expected) in rows {
        for (f, result) in [0, 1, 3, 4, 5].into_iter().zip(expected) {
            assert_eq!(three(1, f, ra, rb), result, "f {f} of {ra:04X} {rb:04X}");
        }
    }
    for f in [2, 6, 7] {
        assert_eq!(comparison(f, 1, 2), None);
    }
}

#[test]
fn addi_adds_modulo_65_536() {
    // ADDI R1,R2,31 / -32 / 1
    assert_eq!(after(0, 0x245F, &[(2, 1)]).s.r[1], 32);
    assert_eq!(after(0, 0x2460, &[(2, 1)]).s.r[1], 0xFFE1);
    assert_eq!(after(0, 0x2441, &[(2, 0xFFFF)]).s.r[1], 0);
}

#[test]
fn addresses_are_modulo_65_536() {
    // LD R1,-2(R0) and LDB R1,-1(R0)
    let mut board = Board::at(0, 0x307E, &[]);
    board.d[0xFFFE..].copy_from_slice(&[0x12, 0x34]);
    assert_eq!(after_on(&board).s.r[1], 0x3412);
    board.put(0, 0x507F);
    assert_eq!(after_on(&board).s.r[1], 0x0034);
    // STB 1(R2),R1 with R2 = 0xFFFF writes D[0] only.
    let stored = after(0, 0x6441, &[(1, 0xABCD), (2, 0xFFFF)]);
    assert_eq!(stored.d[0], 0xCD);
    assert!(stored.d[1..].iter().all(|&byte| byte == 0));
}

#[test]
fn stores_touch_only_their_bytes() {
    // ST 3(R2),R1: bytes 2 and 3. STB 3(R2),R1: byte 3.
    let mut board = Board::at(0, 0x4443, &[(1, 0xABCD)]);
    board.d.fill(0x77);
    let stored = after_on(&board);
    assert_eq!(stored.d[..5], [0x77, 0x77, 0xCD, 0xAB, 0x77]);
    assert!(stored.d[5..].iter().all(|&byte| byte == 0x77));
    board.put(0, 0x6443);
    let stored = after_on(&board);
    assert_eq!(stored.d[..5], [0x77, 0x77, 0x77, 0xCD, 0x77]);
    assert_eq!(stored.s.r, board.s.r);
}

#[test]
fn data_and_program_are_two_memories() {
    // ST 0(R0),R1 at 0 leaves the program as it was.
    let before = Board::at(0, 0x4040, &[(1, 0xFFFF)]);
    let stored = after_on(&before);
    assert!(stored.p == before.p);
    assert_eq!(stored.d[..2], [0xFF, 0xFF]);
}

#[test]
fn ldb_keeps_the_sign() {
    let mut board = Board::at(0, 0x5043, &[]);
    board.d[3] = 0x7F;
    assert_eq!(after_on(&board).s.r[1], 0x007F);
    board.d[3] = 0xFF;
    assert_eq!(after_on(&board).s.r[1], 0xFFFF);
}

#[test]
fn jalr_ignores_its_low_bits() {
    // JALR R1,R2 with every low part
    for low in 0..64 {
        let board = after(0xFFFE, 0x7440 + low, &[(2, 0x8001)]);
        assert_eq!(board.s.pc, 0x8000);
        assert_eq!(board.s.r[1], 0x0000);
        assert_eq!(board.s.r[2], 0x8001);
    }
}

#[test]
fn branches_by_zero_or_not() {
    // BZ R3,4 and BNZ R3,4 at 0x0040
    assert_eq!(after(0x0040, 0x8604, &[(3, 0)]).s.pc, 0x004A);
    assert_eq!(after(0x0040, 0x8604, &[(3, 0x8000)]).s.pc, 0x0042);
    assert_eq!(after(0x0040, 0x8704, &[(3, 0)]).s.pc, 0x0042);
    assert_eq!(after(0x0040, 0x8704, &[(3, 0x8000)]).s.pc, 0x004A);
}

#[test]
fn moves() {
    // MOVI R3,-128 / 127; MOVHI R3,0xFF keeps the low byte.
    assert_eq!(after(0, 0x9680, &[]).s.r[3], 0xFF80);
    assert_eq!(after(0, 0x967F, &[(3, 0xFFFF)]).s.r[3], 0x007F);
    assert_eq!(after(0, 0x97FF, &[(3, 0x1234)]).s.r[3], 0xFF34);
}

#[test]
fn ports_are_apart_from_memory_and_from_each_other() {
    // IN R3,0xFE and OUT 0xFE,R3
    let mut board = Board::at(0, 0xA6FE, &[]);
    board.i[0xFE] = 0xBEEF;
    board.o[0xFE] = 0x1111;
    let read = after_on(&board);
    assert_eq!(read.s.r[3], 0xBEEF);
    assert!((&read.i, &read.o, &read.d) == (&board.i, &board.o, &board.d));
    let written = after(0, 0xA7FE, &[(3, 0xCAFE)]);
    assert_eq!(written.o[0xFE], 0xCAFE);
    assert_eq!(written.o.iter().filter(|&&x| x != 0).count(), 1);
    assert!(written.i.iter().all(|&x| x == 0));
    assert!(written.d.iter().all(|&x| x == 0));
}

#[test]
fn an_entry_holds_n_before_the_step_port_and_value() {
    for engine in ENGINES {
        let mut board = Board::at(0, 0xA7FE, &[(3, 0xCAFE)]);
        board.s.n = 0x8000_0001;
        let stepped = board.step(engine).unwrap();
        assert_eq!(stepped.entry, Some(0x0080_0000_01FE_CAFE));
        assert_eq!(board.s.n, 0x8000_0002);
    }
}
