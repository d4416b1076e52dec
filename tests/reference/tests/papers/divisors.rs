//! How a zero divisor ends a run. Sentences in quotation marks are request L6's.

use crate::board::{Board, Engine, COUNTED, ENGINES};
use crate::extension::word;
use crate::random::Random;
use crate::runs::{done, entry};
use crate::usage::usage;
use crate::words::zero_divisor;
use reference::run::Reply;

/// "A zero divisor is stop 3, before the step": nothing changes, the log neither.
fn stops_with_3(before: &Board, engine: Engine) {
    let mut board = before.clone();
    let mut log = [0xEEEE; 2];
    assert_eq!(done(board.run(engine, 9, &mut log)), (3, 0, 0));
    assert!(board == *before);
    assert_eq!(log, [0xEEEE; 2]);
}

#[test]
fn stop_3_on_every_zero_divisor_and_on_no_other() {
    let mut board = Board::random(&mut Random::new(0xD1F0));
    let mut stopped = 0;
    for w in 0..=0xFFFF_u16 {
        board.put(board.s.pc, w);
        let b = usize::from(w >> 6 & 7);
        for (engine, zero) in ENGINES.into_iter().flat_map(|x| [(x, b), (x, b ^ 1)]) {
            let mut state = board.s;
            state.r = [1; 8];
            state.r[zero] = 0;
            board.s = state;
            let (stop, ..) = done(board.run(engine, 1, &mut [0]));
            assert_eq!(stop == 3, zero_divisor(w, &state.r), "{w:04X}");
            stopped += u32::from(stop == 3);
            board.s = state;
        }
    }
    // Two of eight f in opcode 11.
    assert_eq!(stopped, 3 * 1_024);
}

/// So many of ADDI R4,R4,1, then DIV (f 4) or DIVU (f 5) R3,R4,R2, and two OUTs.
pub fn with_division_at(at: u16, f: u16) -> Board {
    let mut board = Board::with(&vec![0x2901; usize::from(at)]);
    board.put(2 * at, word(f, 3, 4, 2));
    board.put(2 * at + 2, 0xA703);
    board.put(2 * at + 4, 0xA704);
    board.put(2 * at + 6, 0xF000);
    board
}

#[test]
fn the_budget_is_tested_before_and_the_log_after_a_zero_divisor() {
    for (engine, f) in ENGINES.into_iter().flat_map(|x| [(x, 4), (x, 5)]) {
        for at in 0..4 {
            for budget in 0..7 {
                let mut board = with_division_at(at, f);
                let reply = board.run(engine, budget, &mut []);
                let expected = match budget > at.into() {
                    true => (3, at.into(), 0),
                    false => (0, budget, 0),
                };
                assert_eq!(done(reply), expected);
                assert_eq!(u32::from(board.s.pc), 2 * board.s.n);
            }
        }
    }
}

#[test]
fn a_run_stops_there_until_the_divisor_is_another() {
    for engine in ENGINES {
        let mut board = with_division_at(2, 4);
        let mut log = [0xEEEE; 3];
        assert_eq!(done(board.run(engine, 100, &mut log)), (3, 2, 0));
        stops_with_3(&board, engine);
        // Budget 0 comes first, and 5 before all.
        assert_eq!(done(board.run(engine, 0, &mut log)), (0, 0, 0));
        board.s.pc += 1;
        assert_eq!(board.run(engine, 9, &mut log).refusal(), 5);
        board.s.pc -= 1;
        board.s.r[2] = 0xFFFF;
        assert_eq!(done(board.run(engine, 100, &mut log)), (1, 3, 2));
        assert_eq!(board.s.r[3], 0xFFFE);
        assert_eq!(log, [entry(3, 3, 0xFFFE), entry(4, 4, 0xFFFE), 0xEEEE]);
    }
}

/// MOVI R2,3; then a loop: DIVU R3,R1,R2; OUT 9,R3; ADDI R2,R2,-1; BZ R0,-4.
fn countdown() -> Board {
    let mut board = Board::with(&[0x9403, word(5, 3, 1, 2), 0xA709, 0x24BF, 0x80FC]);
    board.s.r[1] = 600;
    board
}

#[test]
fn a_zero_divisor_after_many_that_are_not() {
    for engine in ENGINES {
        let mut log = [0xEEEE; 4];
        assert_eq!(done(countdown().run(engine, 100, &mut log)), (3, 13, 3));
        let outs = [(2, 200), (6, 300), (10, 600)].map(|(n, x)| entry(n, 9, x));
        assert_eq!(log, [outs[0], outs[1], outs[2], 0xEEEE]);
        // The log is full at the zero divisor, and before.
        let mut board = countdown();
        assert_eq!(done(board.run(engine, 100, &mut log[..3])), (3, 13, 3));
        assert_eq!(
            done(countdown().run(engine, 100, &mut log[..2])),
            (2, 10, 2)
        );
        // The budget ends just before the zero divisor, and one step on.
        assert_eq!(done(countdown().run(engine, 13, &mut log)), (0, 13, 3));
        assert_eq!(done(countdown().run(engine, 14, &mut log)), (3, 13, 3));
    }
}

#[test]
fn the_last_word_of_the_program_divides_by_zero() {
    for engine in ENGINES {
        let mut board = Board::at(0xFFFE, word(4, 1, 2, 3), &[(2, 6)]);
        stops_with_3(&board, engine);
        board.s.r[3] = 3;
        assert_eq!(done(board.run(engine, 1, &mut [])), (0, 1, 0));
        assert_eq!((board.s.r[1], board.s.pc), (2, 0));
    }
}

#[test]
fn the_step_that_is_stopped_is_not_counted() {
    // MOVI R2,6; MUL R3,R2,R2; MULH R4,R3,R2; MULHU R4,R2,R3; DIV R5,R3,R2;
    // DIVU R5,R5,R2; DIV R6,R5,R4, and R4 is 0.
    let words = [
        0x9406,
        word(0, 3, 2, 2),
        word(1, 4, 3, 2),
        word(2, 4, 2, 3),
        word(4, 5, 3, 2),
        word(5, 5, 5, 2),
        word(4, 6, 5, 4),
    ];
    let kinds = [(21, 1), (25, 1), (26, 1), (27, 1), (28, 1), (29, 1)];
    let expected = usage(
        &kinds,
        &[(2, 5), (3, 3), (5, 1)],
        &[(2, 1), (3, 1), (4, 2), (5, 2)],
    );
    for run in &COUNTED[..2] {
        let mut board = Board::with(&words);
        let returned = board.counted(*run, 100, &mut []);
        assert_eq!(done(returned.reply), (3, 6, 0));
        assert_eq!(returned.usage, expected);
        assert_eq!(board.s.r, [0, 0, 6, 36, 0, 1, 0, 0]);
    }
}

#[test]
fn a_host_step_before_a_zero_divisor() {
    let before = with_division_at(0, 5);
    let mut board = before.clone();
    let returned = board.counted(COUNTED[2], 1, &mut []);
    let stopped = Reply::Done {
        state: before.s,
        stop: 3,
        steps: 0,
        entries: 0,
    };
    assert_eq!(returned.reply, stopped);
    assert_eq!(returned.usage, usage(&[], &[], &[]));
    assert!(board == before);
    board.s.r[2] = 1;
    assert_eq!(done(board.counted(COUNTED[2], 1, &mut []).reply), (0, 1, 0));
}
