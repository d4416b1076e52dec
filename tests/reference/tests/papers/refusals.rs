//! The refusal table and its boundaries; "Nothing lent changes."

use crate::board::{bytes_of, file, Board, Engine, ENGINES};
use crate::random::Random;
use reference::load::load;
use reference::machine::{Memories, State};
use reference::run::{host_step, Reply};
use reference::set::set;
use reference::window::{window, Memory};

/// A board full of noise, so that a change would show.
pub fn noisy() -> Board {
    Board::random(&mut Random::new(0x5EED_0001))
}

/// The load's answer on a noisy board, which a refusal must leave as it was.
pub fn answer(bytes: &[u8]) -> Result<Board, u8> {
    answer_for(Memories::Two, bytes)
}

/// The same for this board.
pub fn answer_for(memories: Memories, bytes: &[u8]) -> Result<Board, u8> {
    let mut board = noisy();
    let before = board.clone();
    match load(
        bytes,
        memories,
        None,
        &mut board.p,
        &mut board.d,
        &mut board.i,
        &mut board.o,
    ) {
        Ok(state) => {
            board.s = state;
            Ok(board)
        }
        Err(number) => {
            assert!(board == before);
            Err(number)
        }
    }
}

fn number(bytes: &[u8]) -> Option<u8> {
    answer(bytes).err()
}

#[test]
fn a_load_copies_the_parts_and_zeroes_the_rest() {
    let loaded = answer(&file(2, 17, 3, 20, &[9, 1, 2, 3, 4, 5, 6, 7])).unwrap();
    let mut expected = Board::new();
    expected.p[..4].copy_from_slice(&[1, 2, 3, 4]);
    expected.d[..3].copy_from_slice(&[4, 5, 6]);
    assert!(loaded == expected);
    let reset = State {
        r: [0; 8],
        pc: 0,
        n: 0,
        journaled: 0,
        board: 0,
        enabled: 0,
        pending: 0,
        line: 0,
        return_address: 0,
        locked: 0,
        first_locked: 0,
        last_locked: 0,
    };
    assert_eq!(loaded.s, reset);
}

#[test]
fn load_2_under_16_bytes() {
    for length in 0..16 {
        assert_eq!(number(&vec![0xFF; length]), Some(2));
    }
    // 16 bytes and two empty parts at 16
    assert_eq!(number(&file(0, 16, 0, 16, &[])), None);
}

#[test]
fn load_3_limits_of_w_and_c() {
    let rest = vec![0xAB; 65_536];
    let full = answer(&file(32_768, 16, 65_536, 16, &rest)).unwrap();
    assert!(full.p == rest && full.d == rest);
    let longer = vec![0xAB; 70_000];
    assert_eq!(number(&file(32_769, 16, 0, 16, &longer)), Some(3));
    assert_eq!(number(&file(0, 16, 65_537, 16, &longer)), Some(3));
    assert_eq!(number(&file(u32::MAX, 16, 0, 16, &longer)), Some(3));
    assert_eq!(number(&file(0x8000_0001, 16, 0, 16, &longer)), Some(3));
    // 3 before 4
    assert_eq!(number(&file(32_769, 15, 0, 0, &[])), Some(3));
    assert_eq!(number(&file(0, 0, 65_537, 15, &[])), Some(3));
}

#[test]
fn load_4_offsets_and_ends() {
    let rest = [1, 2, 3, 4];
    // offset 15 / 16
    assert_eq!(number(&file(1, 15, 0, 16, &rest)), Some(4));
    assert_eq!(number(&file(1, 16, 0, 16, &rest)), None);
    assert_eq!(number(&file(0, 16, 1, 15, &rest)), Some(4));
    assert_eq!(number(&file(0, 16, 1, 16, &rest)), None);
    // end at the file's end / one past it
    assert_eq!(number(&file(2, 16, 4, 16, &rest)), None);
    assert_eq!(number(&file(2, 17, 4, 16, &rest)), Some(4));
    assert_eq!(number(&file(2, 16, 4, 17, &rest)), Some(4));
    assert_eq!(number(&file(2, 16, 5, 16, &rest)), Some(4));
    assert_eq!(number(&file(3, 16, 4, 16, &rest)), Some(4));
    // ends that overflow 32 bits
    assert_eq!(number(&file(1, u32::MAX, 0, 16, &rest)), Some(4));
    assert_eq!(number(&file(32_768, 0xFFFF_0000, 0, 16, &rest)), Some(4));
    assert_eq!(number(&file(0, 16, 65_536, 0xFFFF_0000, &rest)), Some(4));
}

#[test]
fn load_4_for_empty_parts() {
    let rest = [1, 2, 3, 4];
    for (offset, refused) in [(0, true), (15, true), (16, false), (20, false), (21, true)] {
        let expected = if refused { Some(4) } else { None };
        assert_eq!(number(&file(0, offset, 0, 16, &rest)), expected);
        assert_eq!(number(&file(0, 16, 0, offset, &rest)), expected);
    }
    assert_eq!(number(&file(0, u32::MAX, 0, 16, &rest)), Some(4));
}

/// Lengths around the right one.
pub fn lengths(right: usize) -> [usize; 6] {
    [0, 1, right - 1, right, right + 1, 2 * right]
}

#[test]
fn load_1_before_all_others() {
    let good = file(0, 16, 0, 16, &[]);
    for bytes in [&good[..], &[]] {
        for place in 0..4 {
            for length in lengths(if place < 2 { 65_536 } else { 256 }) {
                let mut board = noisy();
                match place {
                    0 => board.p.resize(length, 7),
                    1 => board.d.resize(length, 7),
                    2 => board.i.resize(length, 7),
                    _ => board.o.resize(length, 7),
                }
                let before = board.clone();
                let answer = load(
                    bytes,
                    Memories::Two,
                    None,
                    &mut board.p,
                    &mut board.d,
                    &mut board.i,
                    &mut board.o,
                );
                if length != 65_536 && length != 256 {
                    assert_eq!(answer, Err(1));
                    assert!(board == before);
                } else if bytes.is_empty() {
                    assert_eq!(answer, Err(2));
                } else {
                    assert_eq!(answer, Ok(State::reset()));
                }
            }
        }
    }
}

#[test]
fn a_set_looks_at_i_only() {
    for length in lengths(256) {
        let mut i = vec![7; length];
        let mut expected = i.clone();
        let answer = set(&mut i, 255, 0xBEEF);
        if length == 256 {
            expected[255] = 0xBEEF;
            assert_eq!(answer, Ok(()));
        } else {
            assert_eq!(answer, Err(1));
        }
        assert_eq!(i, expected);
    }
}

#[test]
fn a_set_changes_one_input() {
    for p in 0..=255_u8 {
        let mut i: Vec<u16> = (0..256).collect();
        let mut expected = i.clone();
        expected[usize::from(p)] = 0xFFFF;
        assert_eq!(set(&mut i, p, 0xFFFF), Ok(()));
        assert_eq!(i, expected);
    }
}

/// A refused run: its number, and nothing changed.
fn refused_run(board: &Board, engine: Engine, budget: u32) -> Option<u8> {
    let mut after = board.clone();
    let mut log = [0xEEEE; 3];
    match after.run(engine, budget, &mut log) {
        Reply::Refused { state, number } => {
            assert_eq!(state, board.s);
            assert!(after == *board);
            assert_eq!(log, [0xEEEE; 3]);
            Some(number)
        }
        Reply::Done { .. } => None,
    }
}

#[test]
fn run_1_then_5_then_6() {
    for engine in [Engine::Rules, Engine::PAPER_TABLE, Engine::Table(&[0; 32])] {
        for place in 0..4 {
            for length in lengths(if place < 2 { 65_536 } else { 256 }) {
                for (pc, n, then) in [(0, 0, None), (1, u32::MAX, Some(5)), (2, u32::MAX, Some(6))]
                {
                    let mut board = noisy();
                    board.s.pc = pc;
                    board.s.n = n;
                    match place {
                        0 => board.p.resize(length, 7),
                        1 => board.d.resize(length, 7),
                        2 => board.i.resize(length, 7),
                        _ => board.o.resize(length, 7),
                    }
                    let right = length == 65_536 || length == 256;
                    let expected = if right { then } else { Some(1) };
                    assert_eq!(refused_run(&board, engine, 3), expected);
                }
            }
        }
    }
}

#[test]
fn run_5_odd_pc() {
    for engine in ENGINES {
        let mut board = noisy();
        for pc in [1, 3, 0x7FFF, 0xFFFF] {
            board.s.pc = pc;
            assert_eq!(refused_run(&board, engine, 5), Some(5));
            assert_eq!(refused_run(&board, engine, 0), Some(5));
        }
        for pc in [0, 2, 0x8000, 0xFFFE] {
            board.s.pc = pc;
            assert_eq!(refused_run(&board, engine, 5), None);
        }
    }
}

#[test]
fn run_6_n_plus_budget() {
    for engine in ENGINES {
        // BZ R0,-1 branches to itself for ever.
        let mut board = Board::with(&[0x80FF]);
        let rows = [
            (u32::MAX, 0, None),
            (u32::MAX, 1, Some(6)),
            (u32::MAX - 10, 10, None),
            (u32::MAX - 10, 11, Some(6)),
            (1, u32::MAX, Some(6)),
            (u32::MAX, u32::MAX, Some(6)),
        ];
        for (n, budget, expected) in rows {
            board.s.n = n;
            assert_eq!(refused_run(&board, engine, budget), expected);
        }
        board.s.n = u32::MAX - 10;
        board.run(engine, 10, &mut []);
        assert_eq!(board.s.n, u32::MAX);
        // n 0 and the greatest budget, on a program that stops at once
        let board = Board::with(&[0xF000]);
        assert_eq!(refused_run(&board, engine, u32::MAX), None);
    }
}

#[test]
fn a_host_step_is_refused_like_a_run() {
    let mut board = noisy();
    for (pc, n, expected) in [(1, u32::MAX, 5), (0, u32::MAX, 6)] {
        let mut held = State { pc, n, ..board.s };
        let handed = held;
        let before = board.clone();
        let reply = host_step(&mut held, board.lent(), &mut [0; 2]).reply;
        assert_eq!(
            reply,
            Reply::Refused {
                state: handed,
                number: expected
            }
        );
        assert_eq!(held, handed);
        assert!(board == before);
    }
}

#[test]
fn a_window_shows_exactly_its_bytes_or_the_empty_part() {
    let p: Vec<u8> = (0..10).collect();
    let d: Vec<u8> = (100..107).collect();
    let edges = [usize::MAX - 1, usize::MAX];
    for (chosen, memory) in [(Memory::Program, &p), (Memory::Data, &d)] {
        for start in (0..13).chain(edges) {
            for count in (0..13).chain(edges) {
                let expected: Vec<u8> = memory.iter().copied().skip(start).take(count).collect();
                let part = window(&State::reset(), chosen, &p, &d, start, count);
                if expected.len() == count {
                    assert_eq!(part, expected);
                } else {
                    assert!(part.is_empty());
                }
            }
        }
    }
    let of_p = |start, count| window(&State::reset(), Memory::Program, &p, &d, start, count);
    assert_eq!(of_p(7, 3), [7, 8, 9]);
    assert!(of_p(7, 4).is_empty());
    assert!(window(&State::reset(), Memory::Data, &[], &[], 0, 0).is_empty());
}

#[test]
fn any_bytes_load_or_are_refused() {
    let mut random = Random::new(0x10AD);
    let mut counts = [0; 5];
    for _ in 0..300 {
        let mut edge = |near: u64| (near + random.below(4)).saturating_sub(2) as u32;
        let header = [edge(4), edge(17), edge(6), edge(17)];
        let length = random.below(24) as usize;
        let rest: Vec<u8> = (0..length).map(|_| random.word() as u8).collect();
        let bytes = file(header[0], header[1], header[2], header[3], &rest);
        counts[usize::from(number(&bytes).unwrap_or(0))] += 1;
    }
    assert!(counts[0] > 0 && counts[4] > 0);
    assert_eq!(number(&bytes_of(&[0; 8])), Some(4));
}
