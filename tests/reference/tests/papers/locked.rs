//! Locked calibration. Sentences in quotation marks are request L14's.

mod pairs;

use crate::board::{file, Board, Engine, COUNTED, ENGINES, JOURNALED};
use crate::journals::UNTOUCHED;
use crate::random::Random;
use crate::refusals::noisy;
use crate::runs::done;
use crate::saves::saved;
use reference::load::{load, Range};
use reference::machine::{Memories, State};
use reference::raise::raise;
use reference::window::{window, Memory};

/// The board with this range locked.
pub fn locked(mut board: Board, first: u16, last: u16) -> Board {
    board.s.locked = 1;
    board.s.first_locked = first;
    board.s.last_locked = last;
    board
}

/// Asserts how a run by every engine ends, and that a stop 4 leaves all as it was and
/// counts nothing.
fn stops(before: &Board, stop: u8) {
    for engine in ENGINES {
        let mut board = before.clone();
        let (found, steps, _) = done(board.run(engine, 1, &mut [0]));
        assert_eq!(
            (found, steps),
            (stop, u32::from(stop == 0)),
            "{:?}",
            before.s
        );
        assert!(stop == 0 || board == *before);
        assert_eq!(before.clone().step(engine).is_some(), stop == 0);
    }
    for run in COUNTED {
        let returned = before.clone().counted(run, 1, &mut [0]);
        assert_eq!(returned.ticks > 0, stop == 0);
    }
}

#[test]
fn which_bytes_are_locked() {
    for (flag, first, last) in [
        (0, 0, 0xFFFF),
        (1, 0, 0xFFFF),
        (1, 5, 5),
        (2, 0, 0),
        (255, 0xFFFF, 0xFFFF),
        (1, 0xFFFE, 0xFFFF),
        (1, 6, 5),
        (1, 0xFFFF, 0),
    ] {
        let state = State {
            locked: flag,
            first_locked: first,
            last_locked: last,
            ..State::reset()
        };
        for address in 0..=0xFFFF_u16 {
            let expected = flag != 0 && first <= address && address <= last;
            assert_eq!(state.locks(address), expected);
        }
    }
}

/// LD, ST, LDB, STB of R2, by R1.
const LD: u16 = 0x3280;
const ST: u16 = 0x4280;
const LDB: u16 = 0x5280;
const STB: u16 = 0x6280;

/// The word at 0x0100 of P, with R1 the address.
fn accessing(w: u16, address: u16) -> Board {
    Board::at(0x0100, w, &[(1, address)])
}

/// The range 5 to 5.
#[test]
fn one_byte_by_hand() {
    for (w, address, stop) in [
        (LD, 4, 4),
        (LD, 5, 4),
        (LD, 3, 0),
        (LD, 6, 0),
        (LDB, 4, 0),
        (LDB, 5, 4),
        (LDB, 6, 0),
        (ST, 5, 4),
        (ST, 4, 4),
        (ST, 6, 0),
        (STB, 5, 4),
        (STB, 4, 0),
        (STB, 6, 0),
    ] {
        stops(&locked(accessing(w, address), 5, 5), stop);
    }
    for (pc, stop) in [(2, 0), (4, 4), (6, 0)] {
        let board = Board::at(pc, 0x2001, &[]);
        stops(&locked(board.clone(), 5, 5), 0);
        stops(&locked(board.on_single_memory(), 5, 5), stop);
    }
}

/// Every address about the ranges' ends, by all four, from two boards.
#[test]
fn every_access_about_a_range() {
    for (first, last) in [
        (0, 0),
        (0, 1),
        (1, 1),
        (1, 2),
        (7, 12),
        (8, 8),
        (0xFFFF, 0xFFFF),
        (0xFFFE, 0xFFFE),
        (0xFFFD, 0xFFFE),
        (0x7FFF, 0x8000),
    ] {
        let near = |end: u16| (0..7).map(move |k| end.wrapping_add(k).wrapping_sub(3));
        for address in near(first).chain(near(last)) {
            for w in [LD, ST, LDB, STB] {
                let touched = match w {
                    LD | ST => vec![address & 0xFFFE, address | 1],
                    _ => vec![address],
                };
                let hit = touched.iter().any(|&at| first <= at && at <= last);
                let board = locked(accessing(w, address), first, last);
                stops(&board, if hit { 4 } else { 0 });
            }
        }
    }
}

#[test]
fn the_sum_wraps_before_it_is_tested() {
    // N6 is -1 and R1 0; N6 is 1 and R1 0xFFFF
    for (n6, address, touched) in [(0x3F, 0, 0xFFFF), (1, 0xFFFF, 0)] {
        for at in [0, 1, 0xFFFE, 0xFFFF_u16] {
            let stop = |hit: bool| if hit { 4 } else { 0 };
            let byte = locked(accessing(LDB + n6, address), at, at);
            stops(&byte, stop(at == touched));
            let word = locked(accessing(ST + n6, address), at, at);
            stops(&word, stop(at & 0xFFFE == touched & 0xFFFE));
        }
    }
}

#[test]
fn ranges_that_lock_nothing_and_all() {
    for w in [LD, ST, LDB, STB] {
        for address in [0, 1, 0x1234, 0xFFFF] {
            stops(&locked(accessing(w, address), 0, 0xFFFF), 4);
            stops(&locked(accessing(w, address), 0xFFFF, 0), 0);
            // First just over last
            let over = locked(accessing(w, address), address.max(1), address.max(1) - 1);
            stops(&over, 0);
            let mut board = locked(accessing(w, address), 0, 0xFFFF);
            board.s.locked = 0;
            stops(&board, 0);
        }
    }
}

/// "Stop 1 comes before it, except on a locked fetch."
#[test]
fn the_order_of_the_stops() {
    // Unassigned, OUT, DIV by zero, LD of the word at 0, each at 0x0200; then the stop
    // on an older board, and on the single-memory one with the fetch locked too.
    for (w, first, last, older, single) in [
        (0xF000, 0, 1, 1, 1),
        (0xF000, 0x0201, 0x0201, 1, 4),
        (0xF000, 0, 0x0200, 1, 4),
        (0xA301, 0, 1, 2, 2),
        (0xA301, 0x0200, 0x0200, 2, 4),
        (0xB00C, 0, 1, 3, 3),
        (0xB00C, 0x0201, 0x0201, 3, 4),
        (LD, 0, 1, 4, 4),
        (LD, 0x0201, 0x0201, 0, 4),
        (LD, 0, 0x0200, 4, 4),
    ] {
        let board = Board::at(0x0200, w, &[]);
        let two = locked(board.clone(), first, last);
        let one = locked(board.on_single_memory(), first, last);
        for (engine, (before, stop)) in ENGINES
            .into_iter()
            .flat_map(|engine| [(engine, (&two, older)), (engine, (&one, single))])
        {
            let mut board = before.clone();
            // A used budget comes first.
            assert_eq!(done(board.run(engine, 0, &mut [])), (0, 0, 0));
            let (found, ..) = done(board.run(engine, 1, &mut []));
            assert_eq!(found, stop, "{w:04X} {first:04X}");
        }
    }
}

#[test]
fn a_line_is_taken_before_a_locked_fetch() {
    for engine in ENGINES {
        let mut board = locked(
            Board::at(0x0200, 0x2001, &[]).on_single_memory(),
            0x0100,
            0x0200,
        );
        board.s.enabled = 1;
        board.s.pending = 1;
        // Taken; then the fetch at 0x0100 is locked too.
        assert_eq!(done(board.run(engine, 9, &mut [])), (4, 1, 0));
        assert_eq!((board.s.pc, board.s.return_address), (0x0100, 0x0200));
    }
}

#[test]
fn a_fetch_into_the_range_ends_a_run() {
    // ADDI at 0 to 6, the range begins in the fourth word, or its last byte.
    for (first, steps) in [(0, 0), (1, 0), (2, 1), (6, 3), (7, 3), (8, 4)] {
        let board = Board::with(&[0x2001; 9]).on_single_memory();
        for run in &COUNTED[..2] {
            let returned = locked(board.clone(), first, 0x00FF).counted(*run, 9, &mut []);
            assert_eq!(done(returned.reply), (4, steps, 0));
            assert_eq!(returned.usage.kinds[13], steps.into());
        }
    }
    // BZ R0 into it, JALR into it
    for w in [0x8010, 0x7200] {
        let mut board = Board::at(0, w, &[(1, 0x0022)]).on_single_memory();
        board = locked(board, 0x0022, 0x0022);
        for engine in ENGINES {
            let mut board = board.clone();
            assert_eq!(done(board.run(engine, 9, &mut [])), (4, 1, 0));
            assert_eq!(board.s.pc, 0x0022);
        }
    }
}

/// By every control word with all of D locked: result 1 and 2 and store 1 and 2 touch,
/// whatever the destination; 3 before 4 and 4 before 2.
#[test]
fn every_control_word() {
    let mut board = locked(Board::new(), 0, 0xFFFF);
    for c in 0..=0xFFFF_u16 {
        let (unit, second) = (c >> 5 & 7, c >> 8 & 3);
        let (result, store) = (c >> 2 & 7, c >> 10 & 3);
        for f in [1, 3, 4] {
            board.s.pc = 0;
            board.s.r = [0; 8];
            board.put(0, f);
            let expected = match (unit, f) {
                _ if c & 0x4000 == 0 => 1,
                _ if c & 0x8000 != 0 => u8::from(f > 3),
                (5, 3) => 1,
                (5, 4) if second == 3 || second == 0 => 3,
                _ if [1, 2].contains(&result) || [1, 2].contains(&store) => 4,
                _ if store == 3 => 2,
                _ => 0,
            };
            let (stop, ..) = done(board.run(Engine::Table(&[c; 32]), 1, &mut []));
            assert_eq!(stop, expected, "{c:04X}, f {f}");
        }
    }
}

/// The word or the byte at the unit's result, by any control word.
#[test]
fn control_words_touch_the_unit_s_result() {
    // Ra plus Rb is 0x3385; opcode 15, R1 and R2
    let w = 0b1111_001_010_011_100;
    for (c, touched) in [
        (0x4044, &[0x3384, 0x3385][..]),
        (0x4440, &[0x3384, 0x3385]),
        (0x4048, &[0x3385]),
        (0x4840, &[0x3385]),
        // Word read and byte stored
        (0x4844, &[0x3384, 0x3385]),
        (0x4040, &[]),
        (0x404C, &[]),
        (0x4C40, &[]),
        // Unit 3, so Rb: 0x2204
        (0x4064, &[0x2204, 0x2205]),
    ] {
        for at in [
            0x3383, 0x3384, 0x3385, 0x3386, 0x2203, 0x2204, 0x2205, 0x2206,
        ] {
            let board = Board::at(0x0100, w, &[(1, 0x1181), (2, 0x2204)]);
            let mut board = locked(board, at, at);
            let (stop, ..) = done(board.run(Engine::Table(&[c; 32]), 1, &mut [0]));
            assert_eq!(stop == 4, touched.contains(&at), "{c:04X} {at:04X}");
        }
    }
}

/// A load with a range, on noise.
fn loaded(memories: Memories, range: Option<Range>, bytes: &[u8]) -> Result<Board, u8> {
    let mut board = noisy();
    let (p, d, i, o) = (&mut board.p, &mut board.d, &mut board.i, &mut board.o);
    let answer = load(bytes, memories, range, p, d, i, o);
    if answer.is_err() {
        assert!(board == noisy());
    }
    answer.map(|s| Board { s, ..board })
}

fn range(first: u16, last: u16) -> Option<Range> {
    Some(Range { first, last })
}

/// "A load may name a range [...], which the state keeps". "18, first over last, after
/// 15"
#[test]
fn loads_with_a_range() {
    let good = file(2, 16, 3, 16, &[1, 2, 3, 4]);
    for memories in [Memories::Two, Memories::Single] {
        let plain = loaded(memories, None, &good).unwrap();
        assert_eq!((plain.s.locked, plain.s.first_locked), (0, 0));
        for (first, last) in [(0, 0), (5, 9), (0, 0xFFFF), (0xFFFF, 0xFFFF)] {
            let found = loaded(memories, range(first, last), &good).unwrap();
            assert!(found == locked(plain.clone(), first, last));
        }
        for (first, last) in [(1, 0), (0xFFFF, 0), (0x8000, 0x7FFF)] {
            assert_eq!(loaded(memories, range(first, last), &good).err(), Some(18));
        }
    }
    let bad = range(1, 0);
    let rest = vec![7; 65_536];
    for (bytes, number) in [
        (vec![], 2),
        (file(32_769, 16, 0, 16, &rest), 3),
        (file(1, 15, 0, 16, &rest), 4),
        (file(32_768, 16, 1, 16, &rest), 15),
        (file(32_768, 16, 0, 16, &rest), 18),
    ] {
        assert_eq!(loaded(Memories::Single, bad, &bytes).err(), Some(number));
    }
    assert_eq!(
        loaded(Memories::Two, bad, &file(32_768, 16, 1, 16, &rest)).err(),
        Some(18)
    );
}

/// "gives a data span holding a locked byte as the empty part"
#[test]
fn windows_about_a_range() {
    let memory: Vec<u8> = (0..65_600).map(|at| at as u8).collect();
    for (first, last) in [(0, 0), (9, 11), (20, 20), (0xFFFF, 0xFFFF), (12, 9)] {
        let state = locked(noisy(), first, last).s;
        let near = (0..26).chain(65_525..65_560);
        for (start, count) in near.flat_map(|start| (0..14).map(move |count| (start, count))) {
            let data = window(&state, Memory::Data, &[], &memory, start, count);
            let span = start as u32..(start + count) as u32;
            let hit = (u32::from(first)..=u32::from(last)).any(|at| span.contains(&at));
            match hit {
                true => assert!(data.is_empty()),
                false => assert_eq!(data, &memory[start..start + count]),
            }
            let program = window(&state, Memory::Program, &memory, &[], start, count);
            assert_eq!(program, &memory[start..start + count]);
        }
        let far = window(&state, Memory::Data, &[], &memory, 1 << 40, usize::MAX - 5);
        assert!(far.is_empty());
    }
}

/// "L1 leaves locked bytes as zero, so a reload restores only the others"
#[test]
fn saves_of_both_boards() {
    let mut random = Random::new(0x10C);
    for at in 0..40 {
        let mut board = Board::random(&mut random);
        if at % 2 == 0 {
            board = board.on_single_memory();
        }
        let any = random.word();
        let (first, last) = [(0, 0), (any, any), (any, 0xFFFF), (0, any), (0, 0xFFFF)][at % 5];
        let board = locked(board, first, last);
        let memories = board.s.memories();
        let again = loaded(memories, range(first, last), &saved(&board)).unwrap();
        for (k, (&was, &is)) in board.d.iter().zip(&again.d).enumerate() {
            let hidden = (first..=last).contains(&(k as u16));
            assert_eq!(is, if hidden { 0 } else { was });
        }
        if memories == Memories::Two {
            // Program words are no data.
            assert!(again.p == board.p);
        }
    }
}

#[test]
fn zeros_before_a_range_at_the_end_are_dropped() {
    let mut board = Board::new();
    board.d[3] = 9;
    board.d[65_530..].fill(7);
    assert_eq!(saved(&locked(board.clone(), 65_530, 65_535)).len(), 16 + 4);
    assert_eq!(
        saved(&locked(board.clone(), 65_531, 65_535)).len(),
        16 + 65_531
    );
    assert_eq!(
        saved(&locked(board.clone(), 65_530, 65_534)).len(),
        16 + 65_536
    );
    assert_eq!(saved(&locked(board.clone(), 3, 65_535)).len(), 16);
    board.s.locked = 0;
    assert_eq!(saved(&board).len(), 16 + 65_536);
}

#[test]
fn nothing_but_a_load_changes_the_range() {
    let mut random = Random::new(0x10D);
    for at in 0..20 {
        let mut board = Board::random(&mut random);
        board.s.locked = [0, 1, 77, 255][at % 4];
        (board.s.first_locked, board.s.last_locked) = (random.word(), random.word());
        let fields = |s: &State| (s.locked, s.first_locked, s.last_locked);
        let expected = fields(&board.s);
        let mut journal = [UNTOUCHED; 40];
        board.journaled(JOURNALED[at % 2], 40, &mut [0; 9], &mut journal);
        assert_eq!(fields(&board.s), expected);
        board.s = raise(board.s, 3).state;
        board.back(&journal, board.s.journaled / 2);
        assert_eq!(fields(&board.s), expected);
        board.counted(COUNTED[at % 3], 40, &mut [0; 9]);
        assert_eq!(fields(&board.s), expected);
    }
}
