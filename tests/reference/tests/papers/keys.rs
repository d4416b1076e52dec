//! Reading the key. Sentences in quotation marks are request L8's.

use crate::board::{after, after_on, Board, Engine, COUNTED, JOURNALED};
use crate::journals::UNTOUCHED;
use crate::runs::done;
use reference::masks::{masks, Masks};
use reference::set::set;

/// IN R3 from this port.
fn in_r3(port: u16) -> u16 {
    0xA600 + port
}

/// Input p is 0x1000 + p, so that none is zero.
fn with_inputs(mut board: Board) -> Board {
    (0..256).for_each(|p| board.i[p] = 0x1000 + p as u16);
    board
}

#[test]
fn in_from_port_1_and_no_other_sets_input_0_to_zero() {
    for port in 0..256 {
        let before = with_inputs(Board::at(0x0100, in_r3(port), &[]));
        let read = after_on(&before);
        assert_eq!(read.s.r[3], 0x1000 + port);
        let mut expected = before.clone();
        if port == 1 {
            expected.i[0] = 0;
        }
        assert!(read.i == expected.i, "{port}");
        assert!((read.d, read.o) == (before.d, before.o));
    }
}

#[test]
fn out_to_port_1_and_a_store_at_1_change_no_input() {
    // OUT 1,R3; STB 1(R0),R3; LDB R3,1(R0); MOVI R3,1
    for w in [0xA701, 0x60C1, 0x50C1, 0x9601] {
        let before = with_inputs(Board::at(0, w, &[(3, 7)]));
        assert!(after_on(&before).i == before.i, "{w:04X}");
    }
    assert_eq!(after(0, in_r3(1), &[]).i, [0; 256]);
}

#[test]
fn masks_are_about_registers_only() {
    let expected = Masks {
        reads: 0,
        writes: 0b0000_1000,
    };
    assert_eq!(masks(in_r3(1)), expected);
}

#[test]
fn a_key_press_is_read_only_one_time() {
    // Status and data, twice: IN R1,0; IN R2,1; IN R3,0; IN R4,1; unassigned
    let words = [0xA200, 0xA401, 0xA600, 0xA801, 0xF000];
    for run in &COUNTED[..2] {
        let mut board = Board::with(&words);
        set(&mut board.i, 1, 65).unwrap();
        set(&mut board.i, 0, 1).unwrap();
        assert_eq!(done(board.counted(*run, 9, &mut []).reply), (1, 4, 0));
        assert_eq!(board.s.r[1..5], [1, 65, 0, 65]);
        assert_eq!(board.i[..2], [0, 65]);
    }
}

#[test]
fn a_read_that_is_not_done_takes_nothing() {
    let before = with_inputs(Board::with(&[0xA401]));
    for run in COUNTED {
        let mut board = before.clone();
        board.s.pc = 1;
        assert_eq!(board.counted(run, 1, &mut []).reply.refusal(), 5);
        assert!(board.i == before.i);
        board.s.pc = 0;
        board.counted(run, 1, &mut []);
        assert_eq!((board.i[0], board.s.r[2]), (0, 0x1001));
    }
    for run in &COUNTED[..2] {
        let mut board = before.clone();
        assert_eq!(done(board.counted(*run, 0, &mut []).reply), (0, 0, 0));
        assert!(board.i == before.i);
    }
    for run in JOURNALED {
        let mut board = before.clone();
        let reply = board.journaled(run, 1, &mut [], &mut []).reply;
        assert_eq!(done(reply), (0, 0, 0));
        assert!(board.i == before.i);
    }
}

/// Every control word beside a word whose N8 is 1: result 4 takes the key,
/// whatever the destination, and no other result does.
#[test]
fn by_any_control_word_result_4_takes_the_key() {
    let mut board = with_inputs(Board::with(&[0xF001]));
    board.s.r = [3; 8];
    let start = board.s;
    let mut taken = 0;
    for c in 0..=0xFFFF_u16 {
        (board.s, board.i[0]) = (start, 0x1000);
        let stepped = board.step(Engine::Table(&[c; 32])).is_some();
        let takes = stepped && c >> 2 & 7 == 4 && c < 0x8000;
        assert_eq!(board.i[0], if takes { 0 } else { 0x1000 }, "{c:04X}");
        assert_eq!(board.i[1..3], [0x1001, 0x1002]);
        taken += u32::from(takes);
    }
    // Bit 14 set and bit 15 clear, and one of eight results; unit 1 has f = 1, unit 5
    // too.
    assert_eq!(taken, 16_384 / 8);
}

/// IN R2,1 and BZ R0,-2, and a journal of so many places.
fn reading(places: usize) -> (Board, Vec<u64>) {
    (Board::with(&[0xA401, 0x80FE]), vec![UNTOUCHED; places])
}

/// "Stepping back past such a read gives input 0 what it held before the read,
/// even if it was set since."
#[test]
fn back_past_a_read_gives_input_0_what_it_held() {
    for (run, set_since) in JOURNALED.into_iter().flat_map(|x| [(x, false), (x, true)]) {
        let (mut board, mut journal) = reading(4);
        board.i[..3].copy_from_slice(&[7, 65, 9]);
        board.journaled(run, 1, &mut [], &mut journal);
        assert_eq!(board.i[..3], [0, 65, 9]);
        if set_since {
            board.i[..3].copy_from_slice(&[8, 66, 10]);
        }
        board.back(&journal, 1);
        let others = if set_since { [66, 10] } else { [65, 9] };
        assert_eq!((board.i[0], &board.i[1..3]), (7, &others[..]));
    }
}

#[test]
fn back_past_several_reads_gives_what_input_0_held_before_the_earliest() {
    for run in JOURNALED {
        let (mut board, mut journal) = reading(9);
        // Steps 0, 2, 4 and 6 read the key; before each it is pressed anew.
        for press in [10, 20, 30, 40] {
            board.i[0] = press;
            board.journaled(run, 2, &mut [], &mut journal);
        }
        for (k, expected) in [
            (0, 99),
            (1, 99), // a branch
            (2, 40),
            (3, 40),
            (4, 30),
            (6, 20),
            (8, 10),
        ] {
            let mut board = board.clone();
            board.i[0] = 99;
            assert_eq!(board.back(&journal, k).refusal(), 0);
            assert_eq!(board.i[0], expected, "{k}");
        }
    }
}
