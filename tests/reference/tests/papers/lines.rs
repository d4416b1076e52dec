//! Knob interrupts. Sentences in quotation marks are request L12's.

use crate::board::{after, after_on, Board, Engine, COUNTED, ENGINES, JOURNALED};
use crate::journals::UNTOUCHED;
use crate::random::Random;
use crate::refusals::{lengths, noisy};
use crate::runs::{done, three_outs};
use reference::machine::State;
use reference::raise::{raise, Raised};
use reference::run::host_step;
use reference::usage::Usage;

const EI: u16 = 0xC000;
const DI: u16 = 0xC001;
const RETI: u16 = 0xC002;

fn getiid(d: u16) -> u16 {
    0xC003 + 8 * d
}

/// The board with these lines pending, enabled.
fn pending(mut board: Board, lines: u8) -> Board {
    board.s.enabled = 1;
    board.s.pending = lines;
    board
}

/// "Raising a line sets its bit." "16, line over 7"
#[test]
fn raising_every_line() {
    let noisy = noisy().s;
    for before in 0..=255 {
        for line in 0..=255_u8 {
            let state = State {
                pending: before,
                ..noisy
            };
            let expected = match line {
                0..=7 => Raised {
                    state: State {
                        pending: before | 1 << line,
                        ..state
                    },
                    refusal: 0,
                },
                _ => Raised { state, refusal: 16 },
            };
            assert_eq!(raise(state, line), expected);
        }
    }
}

#[test]
fn a_reset_machine_has_no_lines() {
    let State {
        enabled,
        pending,
        line,
        return_address,
        ..
    } = State::reset();
    let all = [enabled, pending, line].map(u16::from);
    assert!(all == [0; 3] && return_address == 0);
}

/// "if enabled and a bit is set, the lowest line is taken: its bit clears, its number
/// and PC are kept, PC becomes 0x0100, enable clears"
#[test]
fn every_pending_byte_by_every_engine() {
    // ADDI R1,R1,1 at 0x1234
    let plain = Board::at(0x1234, 0x2241, &[]);
    for (enabled, pending) in [0, 1, 2, 255]
        .iter()
        .flat_map(|e| (0..=255).map(|p| (*e, p)))
    {
        let mut before = plain.clone();
        before.s = State {
            enabled,
            pending,
            line: 0x99,
            return_address: 0x4242,
            ..before.s
        };
        let after = after_on(&before).s;
        let mut expected = before.s;
        expected.n = 1;
        if enabled == 0 || pending == 0 {
            (expected.pc, expected.r[1]) = (0x1236, 1);
        } else {
            let k = pending.trailing_zeros();
            expected.pending = pending & (pending - 1);
            expected.line = k as u8;
            expected.return_address = 0x1234;
            (expected.pc, expected.enabled) = (0x0100, 0);
        }
        assert_eq!(after, expected);
    }
}

/// "Taking counts as one step of 3 ticks, needs only budget, and has a count in the
/// usage sheet"
#[test]
fn taking_is_counted_by_itself() {
    // Whatever stands at PC: unassigned, an OUT, a zero divisor, LD
    for w in [0xF000, 0xA301, 0xB00C, 0x3040] {
        let before = pending(Board::at(0x0200, w, &[]), 0b1010_0000);
        let taken = Usage {
            taken: 1,
            ..Usage::default()
        };
        for run in COUNTED {
            let mut board = before.clone();
            let returned = board.counted(run, 1, &mut []);
            assert_eq!(done(returned.reply), (0, 1, 0), "{w:04X}");
            assert_eq!((returned.usage, returned.ticks), (taken, 3));
            assert_eq!((board.s.line, board.s.return_address), (5, 0x0200));
        }
        for run in JOURNALED {
            let mut board = before.clone();
            let mut journal = [UNTOUCHED; 2];
            let returned = board.journaled(run, 1, &mut [], &mut journal);
            assert_eq!((returned.usage, returned.ticks), (taken, 3));
            assert_eq!(board.back(&journal, 1).fallen(), 0);
            assert!(board == before, "{w:04X}");
        }
    }
}

#[test]
fn a_used_budget_and_a_full_journal_come_before_taking() {
    let before = pending(three_outs(), 1);
    for run in &COUNTED[..2] {
        let mut board = before.clone();
        assert_eq!(done(board.counted(*run, 0, &mut []).reply), (0, 0, 0));
        assert!(board == before);
    }
    for run in JOURNALED {
        let mut board = before.clone();
        let returned = board.journaled(run, 9, &mut [], &mut []);
        assert_eq!(done(returned.reply), (0, 0, 0));
        assert!(board == before);
    }
}

/// The place of return stops the run as it would have done before.
#[test]
fn stops_at_the_place_of_return() {
    // Unassigned, OUT with no free place, DIV by zero
    for (w, stop) in [(0xF000, 1), (0xA301, 2), (0xB00C, 3)] {
        let mut before = pending(Board::at(0x0200, w, &[]), 2);
        before.put(0x0100, RETI);
        for budget in 0..5 {
            let expected = match budget {
                0..=2 => (0, budget, 0),
                _ => (stop, 2, 0),
            };
            for run in &COUNTED[..2] {
                let returned = before.clone().counted(*run, budget, &mut []);
                assert_eq!(done(returned.reply), expected);
                assert_eq!(returned.ticks, 3 * u64::from(expected.1));
            }
        }
    }
}

/// "EI and DI set and clear enable. RETI returns and sets enable. GETIID reads the
/// number."
#[test]
fn the_four_by_hand() {
    let mut before = Board::at(0x0300, 0, &[]);
    before.s.line = 0xF7;
    before.s.return_address = 0x0ABC;
    let step = |w: u16, enabled: u8| {
        let mut board = before.clone();
        board.s.enabled = enabled;
        board.put(0x0300, w);
        after_on(&board).s
    };
    for enabled in [0, 1, 200] {
        let base = State {
            enabled,
            n: 1,
            pc: 0x0302,
            ..before.s
        };
        // Ignored bits set and not.
        for ignored in [0, 0x0FC0, 0x0FF8] {
            assert_eq!(step(EI | ignored, enabled), State { enabled: 1, ..base });
            assert_eq!(step(DI | ignored, enabled), State { enabled: 0, ..base });
            let returned = State {
                enabled: 1,
                pc: 0x0ABC,
                ..base
            };
            assert_eq!(step(RETI | ignored, enabled), returned);
        }
        for d in 0..8 {
            let mut expected = base;
            expected.r[usize::from(d)] = 0x00F7;
            assert_eq!(step(getiid(d), enabled), expected);
            assert_eq!(step(getiid(d) | 0x0FC0, enabled), expected);
        }
    }
    assert_eq!(after(0, 0xCFFB, &[(7, 9)]).s.r, [0; 8]);
}

#[test]
fn f_4_to_7_stay_unassigned() {
    for (engine, f) in ENGINES
        .into_iter()
        .flat_map(|x| (4..8).map(move |f| (x, f)))
    {
        let mut board = Board::with(&[EI + f]);
        assert_eq!(done(board.run(engine, 1, &mut [])), (1, 0, 0));
    }
}

/// MOVI R1,1; EI; ADDI R1,R1,1; ADDI R1,R1,1; unassigned; at 0x0100 GETIID R2 and
/// RETI.
fn with_handler() -> Board {
    let mut board = Board::with(&[0x9201, EI, 0x2241, 0x2241, 0xF000]);
    board.put(0x0100, getiid(2));
    board.put(0x0102, RETI);
    board
}

#[test]
fn a_pending_line_is_taken_right_after_ei() {
    for board in [with_handler(), with_handler().on_single_memory()] {
        for engine in ENGINES {
            let mut board = board.clone();
            board.s.pending = 0b0100_1000;
            // MOVI, EI, taken, GETIID, RETI, taken
            for (pc, enabled, pending) in [
                (2, 0, 0b0100_1000),
                (4, 1, 0b0100_1000),
                (0x0100, 0, 0b0100_0000),
                (0x0102, 0, 0b0100_0000),
                (4, 1, 0b0100_0000),
                (0x0100, 0, 0),
            ] {
                board.run(engine, 1, &mut []);
                let found = (board.s.pc, board.s.enabled, board.s.pending);
                assert_eq!(found, (pc, enabled, pending));
            }
            assert_eq!((board.s.r[1], board.s.r[2], board.s.line), (1, 3, 6));
            assert_eq!(done(board.run(engine, 9, &mut [])), (1, 4, 0));
            assert_eq!((board.s.r[1], board.s.r[2]), (3, 6));
        }
    }
}

#[test]
fn no_line_is_taken_while_enable_is_off() {
    for engine in ENGINES {
        let mut board = with_handler();
        board.put(2, DI);
        board.s.pending = 0xFF;
        assert_eq!(done(board.run(engine, 99, &mut [])), (1, 4, 0));
        assert_eq!((board.s.pending, board.s.n), (0xFF, 4));
    }
}

#[test]
fn ei_in_a_handler_nests_and_keeps_one_return_address() {
    // At 0x0100 EI, then ADDI R1,R1,1 and RETI: the second line returns to 0x0102,
    // where the first goes on, and returns there again.
    for engine in ENGINES {
        let mut board = pending(Board::at(0x0010, 0xF000, &[]), 0b0000_0011);
        [EI, 0x2241, RETI]
            .iter()
            .zip([0x0100, 0x0102, 0x0104])
            .for_each(|(&w, at)| board.put(at, w));
        let mut pcs = Vec::new();
        for _ in 0..8 {
            board.run(engine, 1, &mut []);
            pcs.push(board.s.pc);
        }
        let expected = [
            0x0100, 0x0102, 0x0100, 0x0102, 0x0104, 0x0102, 0x0104, 0x0102,
        ];
        assert_eq!(pcs, expected);
    }
}

#[test]
fn a_line_raised_again_while_it_is_handled_is_taken_again() {
    for engine in ENGINES {
        let mut board = pending(with_handler(), 4);
        board.run(engine, 2, &mut []);
        board.s = raise(board.s, 2).state;
        board.run(engine, 2, &mut []);
        // Returned to 0 and taken again.
        let found = (board.s.pc, board.s.return_address, board.s.pending);
        assert_eq!(found, (0x0100, 0, 0));
    }
}

/// "An odd return address is refused like an odd PC."
#[test]
fn five_for_an_odd_return_address() {
    for (pc, return_address) in [(0, 1), (1, 1), (1, 0), (2, 0xFFFF)] {
        let mut before = noisy();
        before.s = State {
            pc,
            return_address,
            n: 5,
            journaled: 1,
            ..before.s
        };
        for run in COUNTED {
            let mut board = before.clone();
            assert_eq!(board.counted(run, 1, &mut []).reply.refusal(), 5);
            assert!(board == before);
        }
        for run in JOURNALED {
            let mut board = before.clone();
            let reply = board.journaled(run, 1, &mut [], &mut [0; 4]).reply;
            assert_eq!(reply.refusal(), 5);
            assert!(board == before);
        }
        for k in [0, 1, 9] {
            let mut board = before.clone();
            assert_eq!(board.back(&[0], k).refusal(), 5);
            assert!(board == before);
        }
        // 5 before 6, and after 1
        let mut board = before.clone();
        board.s.n = u32::MAX;
        let mut held = board.s;
        let refused = host_step(&mut held, board.lent(), &mut []).reply;
        assert_eq!((refused.refusal(), held), (5, board.s));
        for length in lengths(256).into_iter().filter(|&x| x != 256) {
            board.i.resize(length, 0);
            assert_eq!(board.run(Engine::Rules, 1, &mut []).refusal(), 1);
        }
    }
}

/// "Stepping back restores these; a raise in between stays"
#[test]
fn back_past_a_taking_with_raises_in_between() {
    for (run, raised) in JOURNALED
        .into_iter()
        .flat_map(|x| (0..8).map(move |k| (x, k)))
    {
        let mut before = pending(with_handler(), 0b0010_0100);
        before.s.enabled = 77;
        before.s.line = 88;
        before.s.return_address = 0x2222;
        let mut board = before.clone();
        let mut journal = [UNTOUCHED; 4];
        // Taken, GETIID, RETI
        board.journaled(run, 3, &mut [], &mut journal);
        assert_eq!((board.s.pc, board.s.enabled, board.s.line), (0, 1, 2));
        board.s = raise(board.s, raised).state;
        for (k, enabled, line, lines) in [
            (1, 0, 2, 0b0010_0000),
            (2, 0, 2, 0b0010_0000),
            (3, 77, 88, 0b0010_0100),
        ] {
            let mut board = board.clone();
            assert_eq!(board.back(&journal, k).refusal(), 0);
            assert_eq!((board.s.enabled, board.s.line), (enabled, line));
            assert_eq!(board.s.pending, lines | 1 << raised);
        }
        board.back(&journal, 3);
        board.s.pending = before.s.pending;
        assert!(board == before);
    }
}

#[test]
fn back_restores_the_byte_that_ei_di_and_reti_overwrote() {
    for (w, enabled) in [EI, DI, RETI]
        .iter()
        .flat_map(|w| [0, 1, 2, 255].map(|e| (*w, e)))
    {
        for run in JOURNALED {
            let mut before = Board::at(0x0040, w, &[]);
            before.s.enabled = enabled;
            before.s.return_address = 0x0BB0;
            let mut board = before.clone();
            let mut journal = [UNTOUCHED];
            board.journaled(run, 1, &mut [], &mut journal);
            assert_eq!(board.s.enabled, u8::from(w != DI));
            board.back(&journal, 1);
            assert!(board == before);
        }
    }
}

/// Random programs with many of the four, lines raised between runs: each run is the
/// plain machine's steps by hand, and no line is lost.
#[test]
fn random_runs_with_raises() {
    let mut random = Random::new(0x112E);
    let (mut takings, mut raises) = (0, 0);
    for at in 0..60 {
        let mut board = Board::random(&mut random).with_lines(&mut random);
        if at % 2 == 0 {
            board = board.on_single_memory();
        }
        for call in 0..40 {
            let line = random.below(8) as u8;
            raises += u32::from(board.s.pending >> line & 1 == 0);
            board.s = raise(board.s, line).state;
            let before = board.s.pending.count_ones();
            let returned = board.counted(COUNTED[call % 3], random.below(60) as u32, &mut [0; 9]);
            let taken = returned.usage.taken as u32;
            assert_eq!(board.s.pending.count_ones(), before - taken);
            takings += taken;
        }
    }
    assert!(
        takings > 200 && takings <= raises + 8 * 60,
        "{takings}, {raises}"
    );
}
