//! Budgets, stop reasons and the log.

use crate::board::{Board, ENGINES};
use crate::words::unassigned;
use reference::machine::State;
use reference::run::{host_step, Reply};

pub fn done(reply: Reply) -> (u8, u32, u32) {
    match reply {
        Reply::Done {
            stop,
            steps,
            entries,
            ..
        } => (stop, steps, entries),
        Reply::Refused { number, .. } => panic!("refused {number}"),
    }
}

/// MOVI R1,7; OUT 1,R1; OUT 2,R1; OUT 3,R1; unassigned.
pub fn three_outs() -> Board {
    Board::with(&[0x9207, 0xA301, 0xA302, 0xA303, 0xF000])
}

pub fn entry(n: u64, port: u64, value: u64) -> u64 {
    (n << 24) | (port << 16) | value
}

#[test]
fn stop_0_comes_first() {
    for engine in ENGINES {
        // On an unassigned word, and on an OUT with no free place.
        assert_eq!(
            done(Board::with(&[0xF000]).run(engine, 0, &mut [])),
            (0, 0, 0)
        );
        assert_eq!(
            done(Board::with(&[0xA301]).run(engine, 0, &mut [])),
            (0, 0, 0)
        );
        let mut board = three_outs();
        assert_eq!(done(board.run(engine, 4, &mut [0; 3])), (0, 4, 3));
        assert_eq!(done(board.run(engine, 1, &mut [0; 3])), (1, 0, 0));
    }
}

#[test]
fn stop_1_on_every_unassigned_word_and_on_no_other() {
    for engine in ENGINES {
        let mut board = Board::new();
        let mut log = [0; 1];
        for w in 0..=0xFFFF_u16 {
            board.s = State::reset();
            // No divisor is zero.
            board.s.r = [1; 8];
            board.put(0, w);
            let (stop, steps, _) = done(board.run(engine, 1, &mut log));
            let expected = if unassigned(w) { (1, 0) } else { (0, 1) };
            assert_eq!((stop, steps), expected, "{w:04X}");
            assert_eq!(board.s.n, steps);
        }
    }
}

#[test]
fn stop_2_only_before_an_out_that_the_log_cannot_hold() {
    for engine in ENGINES {
        for places in 0..5_usize {
            let mut board = three_outs();
            let mut log = vec![0xEEEE; places];
            let reply = done(board.run(engine, 100, &mut log));
            let outs = places.min(3) as u32;
            let stop = if places < 3 { 2 } else { 1 };
            assert_eq!(reply, (stop, 1 + outs, outs));
            assert_eq!(board.s.pc, 2 + 2 * outs as u16);
            for (at, &found) in log.iter().enumerate() {
                let written = entry(at as u64 + 1, at as u64 + 1, 7);
                assert_eq!(found, if at < 3 { written } else { 0xEEEE });
            }
            for port in 1..=3 {
                assert_eq!(board.o[port], if port <= places { 7 } else { 0 });
            }
        }
    }
}

#[test]
fn each_run_fills_its_log_from_place_0() {
    for engine in ENGINES {
        let mut board = three_outs();
        let mut log = [0xEEEE; 2];
        assert_eq!(done(board.run(engine, 2, &mut log)), (0, 2, 1));
        assert_eq!(log, [entry(1, 1, 7), 0xEEEE]);
        assert_eq!(done(board.run(engine, 1, &mut log)), (0, 1, 1));
        assert_eq!(log, [entry(2, 2, 7), 0xEEEE]);
    }
}

#[test]
fn pc_wraps_around_the_program() {
    for engine in ENGINES {
        // ADDI R0,R0,1 everywhere: 32,768 words, so 40,000 steps go round.
        let mut board = Board::with(&vec![0x2001; 32_768]);
        assert_eq!(done(board.run(engine, 40_000, &mut [])), (0, 40_000, 0));
        assert_eq!(
            board.s,
            State {
                r: [40_000, 0, 0, 0, 0, 0, 0, 0],
                pc: 14_464,
                n: 40_000,
                ..State::reset()
            }
        );
    }
}

#[test]
fn a_host_step_is_a_run_by_the_table_with_budget_1() {
    let mut board = three_outs();
    let mut held = board.s;
    let mut log = [0xEEEE; 1];
    for (expected, pc) in [
        ((0, 1, 0), 2),
        ((0, 1, 1), 4),
        ((0, 1, 1), 6),
        ((0, 1, 1), 8),
        ((1, 0, 0), 8),
    ] {
        let reply = host_step(&mut held, board.lent(), &mut log).reply;
        assert_eq!(done(reply), expected);
        assert_eq!(reply.state(), held);
        assert_eq!(held.pc, pc);
    }
    assert_eq!(log, [entry(3, 3, 7)]);
    assert_eq!(held.n, 4);
}
