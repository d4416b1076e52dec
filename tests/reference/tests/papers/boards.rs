//! The single-memory board. Sentences in quotation marks are request L11's.

use crate::board::{after_on, bytes_of, file, Board, Engine, COUNTED, ENGINES, JOURNALED};
use crate::journals::UNTOUCHED;
use crate::random::Random;
use crate::refusals::{answer, answer_for, lengths, noisy};
use crate::runs::done;
use crate::saves::saved;
use reference::machine::{Memories, State};
use reference::save::save;

/// A single-memory board with these words from address 0.
fn single(words: &[u16]) -> Board {
    Board::with(words).on_single_memory()
}

/// "the program part goes to address 0, the data part to address 2W, the lent
/// program memory is zeroed"
#[test]
fn a_load_for_the_single_memory_board() {
    let bytes = file(2, 17, 3, 20, &[9, 1, 2, 3, 4, 5, 6, 7]);
    let loaded = answer_for(Memories::Single, &bytes).unwrap();
    let mut expected = Board::new();
    expected.d[..7].copy_from_slice(&[1, 2, 3, 4, 4, 5, 6]);
    expected.s.board = 1;
    assert!(loaded == expected);
    assert_eq!(answer(&bytes).unwrap().s, State::reset());
}

#[test]
fn parts_that_are_empty_or_fill_the_memory() {
    let rest: Vec<u8> = (0..65_536).map(|at| (at % 255 + 1) as u8).collect();
    for (w, c) in [(0, 0), (0, 65_536), (32_768, 0), (32_767, 2), (1, 65_534)] {
        let bytes = file(w, 16, c, 16, &rest);
        let loaded = answer_for(Memories::Single, &bytes).unwrap();
        let (w, c) = (w as usize, c as usize);
        let mut expected = [&rest[..2 * w], &rest[..c]].concat();
        expected.resize(65_536, 0);
        assert!(loaded.d == expected && loaded.p == [0; 65_536]);
    }
}

/// "15, new board and 2W plus C over 65,536, after 4"
#[test]
fn fifteen_where_both_parts_are_over_65_536() {
    let rest = vec![7; 65_536];
    for (w, c, refused) in [
        (32_768, 0, false),
        (32_768, 1, true),
        (32_767, 2, false),
        (32_767, 3, true),
        (0, 65_536, false),
        (1, 65_534, false),
        (1, 65_535, true),
        (1, 65_536, true),
        (32_768, 65_536, true),
    ] {
        let bytes = file(w, 16, c, 16, &rest);
        let expected = if refused { Some(15) } else { None };
        assert_eq!(answer_for(Memories::Single, &bytes).err(), expected);
        assert_eq!(answer(&bytes).err(), None);
    }
}

#[test]
fn fifteen_after_all_others() {
    let rest = vec![7; 65_536];
    for (number, w, program, c, data) in [
        (3, 32_769, 16, 65_536, 16),
        (3, 32_768, 16, 65_537, 16),
        (4, 32_768, 15, 65_536, 16),
        (4, 32_768, 16, 65_536, 17),
        (4, 32_768, 17, 1, 16),
        (15, 32_768, 16, 65_536, 16),
    ] {
        let bytes = file(w, program, c, data, &rest);
        let single = answer_for(Memories::Single, &bytes).err();
        assert_eq!(single, Some(number));
    }
    assert_eq!(answer_for(Memories::Single, &[0; 15]).err(), Some(2));
}

/// "0 is two memories, any other the single one"
#[test]
fn any_byte_of_the_state_names_a_board() {
    // MOVI R1,1 in P and MOVI R1,2 in D
    for board in [0, 1, 2, 128, 255] {
        let mut before = Board::with(&[0x9201]);
        before.d[..2].copy_from_slice(&[0x02, 0x92]);
        before.s.board = board;
        let after = after_on(&before);
        assert_eq!(after.s.r[1], if board == 0 { 1 } else { 2 });
        // "kept in the state", also by runs, goings back and refusals
        assert_eq!(after.s.board, board);
        let mut journal = [UNTOUCHED; 2];
        for run in JOURNALED {
            let mut stepped = before.clone();
            stepped.journaled(run, 1, &mut [], &mut journal);
            assert_eq!((stepped.s.board, stepped.s.n), (board, 1));
            assert_eq!(stepped.back(&journal, 1).refusal(), 0);
            assert!(stepped == before);
            stepped.s.pc = 1;
            stepped.journaled(run, 1, &mut [], &mut journal);
            assert_eq!(stepped.back(&journal, 0).refusal(), 5);
            assert_eq!(stepped.s.board, board);
        }
    }
}

/// ADDI R1,R1,1 and MOVI R1,9
const ADD_1: u16 = 0x2241;
const MOVE_9: u16 = 0x9209;

/// Runs by each engine so many steps: what R1 holds, and the board.
fn ran(before: &Board, steps: u32) -> (u16, Board) {
    let mut boards = ENGINES.map(|_| before.clone());
    for (board, engine) in boards.iter_mut().zip(ENGINES) {
        assert_eq!(done(board.run(engine, steps, &mut [])), (0, steps, 0));
    }
    assert!(boards.iter().all(|board| *board == boards[0]));
    (boards[0].s.r[1], boards[0].clone())
}

/// "a store may change the instruction that follows"
#[test]
fn a_store_into_the_next_word() {
    // ST 2(R0),R2
    let mut board = single(&[0x4082, ADD_1]);
    board.s.r[2] = MOVE_9;
    assert_eq!(ran(&board, 2).0, 9);
    // An older board keeps its program.
    let mut older = Board::with(&[0x4082, ADD_1]);
    older.s.r[2] = MOVE_9;
    assert_eq!(ran(&older, 2).0, 1);
    assert_eq!(older.d[2..4], [0, 0]);
}

#[test]
fn a_byte_into_the_next_word() {
    // STB 2(R0),R2 makes of ADDI R1,R1,1 ADDI R1,R1,7; STB 3(R0),R2 MOVI R3,0x41
    for (w, byte, expected) in [(0x6082, 0x47, (7, 0)), (0x6083, 0x96, (0, 0x41))] {
        let mut board = single(&[w, ADD_1]);
        board.s.r[2] = byte;
        let after = ran(&board, 2).1;
        assert_eq!((after.s.r[1], after.s.r[3]), expected);
    }
}

#[test]
fn a_store_into_the_word_being_executed() {
    // ST 0(R0),R2, then BZ R0,-2: the store is done once, then MOVI R1,9.
    let mut board = single(&[0x4080, 0x80FE]);
    board.s.r[2] = MOVE_9;
    let (r1, after) = ran(&board, 3);
    assert_eq!((r1, after.s.pc), (9, 2));
    // STB 1(R0),R2: its high byte becomes MOVI's, so MOVI R1,0x81
    let mut board = single(&[0x6081, 0x80FE]);
    board.s.r[2] = 0x92;
    assert_eq!(ran(&board, 3).0, 0xFF81);
}

#[test]
fn a_store_into_a_word_behind() {
    // ADDI R1,R1,1; ST 0(R0),R2; BZ R0,-3; the second time round MOVI R1,9
    let mut board = single(&[ADD_1, 0x4080, 0x80FD]);
    board.s.r[2] = MOVE_9;
    assert_eq!(ran(&board, 3).0, 1);
    assert_eq!(ran(&board, 4).0, 9);
}

#[test]
fn stores_around_the_wrap() {
    // At 0xFFFC ST -2(R0),R2: the next word, at 0xFFFE. Then one at 0.
    let mut board = single(&[ADD_1]);
    board.s.pc = 0xFFFC;
    board.put(0xFFFC, 0x40BE);
    board.s.r[2] = MOVE_9;
    let (r1, after) = ran(&board, 3);
    assert_eq!((r1, after.s.pc), (10, 2));
    // At 0xFFFE ST 0(R0),R2: the word that follows is at 0.
    let mut board = single(&[ADD_1]);
    board.s.pc = 0xFFFE;
    board.put(0xFFFE, 0x4080);
    board.s.r[2] = MOVE_9;
    let (r1, after) = ran(&board, 2);
    assert_eq!((r1, after.s.pc), (9, 2));
}

/// LD reads what the program is.
#[test]
fn a_load_of_the_word_being_executed() {
    // LD R1,0(R0)
    assert_eq!(ran(&single(&[0x3040]), 1).0, 0x3040);
}

/// A stored word can end the run, or be an OUT that the log can't hold.
#[test]
fn stops_by_a_stored_word() {
    // ST 2(R0),R2: unassigned, OUT, DIV R1,R1,R0
    for (w, stop) in [(0xF000, 1), (0xA101, 2), (0xB20C, 3)] {
        let mut board = single(&[0x4082, ADD_1]);
        board.s.r[2] = w;
        for run in &COUNTED[..2] {
            let mut board = board.clone();
            let returned = board.counted(*run, 9, &mut []);
            assert_eq!(done(returned.reply), (stop, 1, 0));
            assert_eq!((returned.usage.kinds[15], returned.ticks), (1, 4));
        }
    }
}

/// Each step is that of an older board whose program is the data of this moment.
#[test]
fn every_step_fetches_from_the_data_as_it_is() {
    let mut random = Random::new(0xB0A2D);
    let mut stores_followed = 0;
    for at in 0..300 {
        let mut board = Board::random(&mut random).on_single_memory();
        // Registers about PC, and each third word there an ST, so that stores
        // change what follows.
        board.s.r = board.s.r.map(|_| board.s.pc ^ random.below(16) as u16);
        for at in (0..60).step_by(6) {
            let w = 0x4000 + random.below(4_096) as u16;
            board.put(board.s.pc.wrapping_add(at), w);
        }
        for _ in 0..60 {
            let mut older = board.clone();
            older.s.board = 0;
            older.p.clone_from(&board.d);
            let before = board.d.clone();
            let stepped = board.step(ENGINES[at % 3]).is_some();
            assert_eq!(older.step(Engine::Rules).is_some(), stepped);
            older.s.board = 1;
            assert!((&older.d, &older.i, &older.o) == (&board.d, &board.i, &board.o));
            assert_eq!(older.s, board.s);
            let next = usize::from(board.s.pc);
            stores_followed += u32::from(before[next..next + 2] != board.d[next..next + 2]);
            if !stepped {
                break;
            }
        }
    }
    assert!(stores_followed > 30, "{stores_followed}");
}

/// "the lent program memory is [...] never read"
#[test]
fn other_bytes_in_p_change_nothing() {
    let mut random = Random::new(0xB0A2E);
    for at in 0..60 {
        let mut board = Board::random(&mut random).on_single_memory();
        let mut other = board.clone();
        other.p = noisy().p;
        let [mut journal, mut others] = [[UNTOUCHED; 300]; 2];
        let run = JOURNALED[at % 2];
        let expected = board.journaled(run, 300, &mut [0; 9], &mut journal);
        let found = other.journaled(run, 300, &mut [0; 9], &mut others);
        assert!(expected == found && journal == others);
        let k = random.below(board.s.journaled + 1);
        assert_eq!(board.back(&journal, k), other.back(&journal, k));
        assert!(saved(&board) == saved(&other));
        assert!(other.p == noisy().p);
        other.p.clone_from(&board.p);
        assert!(board == other);
    }
}

#[test]
fn back_past_a_store_into_the_program() {
    // ST 2(R0),R2; STB 5(R0),R3; MOVI R1,9 when stored
    for run in JOURNALED {
        let mut before = single(&[0x4082, 0x60C5, ADD_1]);
        before.s.r[2..4].copy_from_slice(&[0x6085, MOVE_9]);
        let mut board = before.clone();
        let mut journal = [UNTOUCHED; 3];
        board.journaled(run, 3, &mut [], &mut journal);
        assert!(board.d[..6] != before.d[..6]);
        assert_eq!(board.back(&journal, 3).refusal(), 0);
        assert!(board == before);
    }
}

/// "saves the new board's data memory as data with W zero; loading for that board
/// gives back that memory alone"
#[test]
fn a_save_of_the_single_memory_board() {
    let mut board = single(&[0x9AF6, 0, 0xAB03]);
    board.d[9] = 5;
    let mut rest = bytes_of(&[0x9AF6, 0, 0xAB03]);
    rest.extend([0, 0, 0, 5]);
    assert_eq!(saved(&board), file(0, 16, 10, 16, &rest));
    assert_eq!(saved(&single(&[])), file(0, 16, 0, 16, &[]));
    let mut random = Random::new(0x5A7F);
    for _ in 0..50 {
        let mut expected = Board::new();
        expected.s.board = 1;
        expected.d = noisy().d;
        expected.d[random.below(65_537) as usize..].fill(0);
        let mut board = expected.clone();
        board.p = noisy().p;
        board.s.r = noisy().s.r;
        assert!(answer_for(Memories::Single, &saved(&board)) == Ok(expected));
    }
}

#[test]
fn save_1_then_9_for_the_single_memory_board() {
    let state = single(&[]).s;
    for length in lengths(65_536) {
        for places in [0, 65_551, 65_552] {
            let expected = match (length, places) {
                (65_536, 65_552) => Ok(65_552),
                (65_536, _) => Err(9),
                _ => Err(1),
            };
            let memory = vec![7; length];
            for (p, d) in [(&memory, &vec![7; 65_536]), (&vec![7; 65_536], &memory)] {
                let mut destination = vec![0xEE; places];
                assert_eq!(save(&state, p, d, &mut destination), expected);
                let kept = destination.iter().all(|&byte| byte == 0xEE);
                assert_eq!(kept, expected.is_err());
            }
        }
    }
}

#[test]
fn a_file_of_one_board_loaded_for_the_other() {
    // The older board's file has the data at 2W, the new board's no program.
    let mut older = Board::with(&[0x9AF6, 0xAB03]);
    older.d[..2].copy_from_slice(&[3, 4]);
    let loaded = answer_for(Memories::Single, &saved(&older)).unwrap();
    assert_eq!(loaded.d[..6], [0xF6, 0x9A, 0x03, 0xAB, 3, 4]);
    let loaded = answer(&saved(&single(&[0x9AF6]))).unwrap();
    assert_eq!((loaded.p[0], loaded.d[..2].to_vec()), (0, vec![0xF6, 0x9A]));
}
