//! Saving a trim: document 02's request L1.

use crate::board::{bytes_of, file, Board};
use crate::random::Random;
use crate::refusals::{answer, lengths, noisy};
use reference::machine::State;
use reference::save::save;

/// The file that the board's memories are saved as. The rest of the
/// destination must be as it was.
pub fn saved(board: &Board) -> Vec<u8> {
    let mut destination = vec![0xEE; 140_000];
    let length = save(&board.s, &board.p, &board.d, &mut destination).unwrap();
    assert!(destination[length..].iter().all(|&byte| byte == 0xEE));
    destination.truncate(length);
    destination
}

#[test]
fn zero_memories_are_16_bytes() {
    let header = [0, 0, 0, 0, 16, 0, 0, 0, 0, 0, 0, 0, 16, 0, 0, 0];
    assert_eq!(saved(&Board::new()), header);
}

#[test]
fn a_file_by_hand() {
    // Zeros before the last word and the last byte stay.
    let mut board = Board::with(&[0x9AF6, 0, 0xAB03]);
    board.d[..4].copy_from_slice(&[0, 7, 0, 9]);
    let mut rest = bytes_of(&[0x9AF6, 0, 0xAB03]);
    rest.extend([0, 7, 0, 9]);
    assert_eq!(saved(&board), file(3, 16, 4, 22, &rest));
}

#[test]
fn whole_words_of_the_program_and_single_bytes_of_the_data() {
    // The last byte that isn't zero, then W or C.
    for (last, words, bytes) in [
        (0, 1, 1),
        (1, 1, 2),
        (2, 2, 3),
        (3, 2, 4),
        (65_534, 32_768, 65_535),
        (65_535, 32_768, 65_536),
    ] {
        let mut board = Board::new();
        board.p[last] = 0x80;
        let rest = &board.p[..2 * words as usize];
        assert_eq!(saved(&board), file(words, 16, 0, 16 + 2 * words, rest));
        let mut board = Board::new();
        board.d[last] = 1;
        let rest = &board.d[..bytes as usize];
        assert_eq!(saved(&board), file(0, 16, bytes, 16, rest));
    }
}

#[test]
fn full_memories_are_131_088_bytes() {
    let mut board = noisy();
    board.p[65_534..].copy_from_slice(&[1, 0]);
    board.d[65_535] = 1;
    let rest = [&board.p[..], &board.d[..]].concat();
    let saved = saved(&board);
    assert_eq!(saved.len(), 131_088);
    assert!(saved == file(32_768, 16, 65_536, 65_552, &rest));
}

#[test]
fn a_saved_file_loads_back() {
    let mut random = Random::new(0x5A7E);
    for _ in 0..100 {
        // Ports and registers are reset.
        let mut expected = Board {
            p: noisy().p,
            d: noisy().d,
            ..Board::new()
        };
        expected.p[random.below(65_537) as usize..].fill(0);
        expected.d[random.below(65_537) as usize..].fill(0);
        assert!(answer(&saved(&expected)) == Ok(expected));
    }
}

#[test]
fn save_9_destination_shorter_than_the_file() {
    // Four bytes of program and three of data: 23.
    let mut board = Board::with(&[0xFFFF, 0x0100]);
    board.d[2] = 5;
    let file = saved(&board);
    assert_eq!(file.len(), 23);
    for length in 0..30 {
        let mut destination = vec![0xEE; length];
        let answer = save(&board.s, &board.p, &board.d, &mut destination);
        if length < 23 {
            assert_eq!(answer, Err(9));
            assert_eq!(destination, vec![0xEE; length]);
        } else {
            assert_eq!(answer, Ok(23));
            assert_eq!(destination[..23], file);
            assert!(destination[23..].iter().all(|&byte| byte == 0xEE));
        }
    }
}

#[test]
fn save_1_before_9() {
    for length in lengths(65_536) {
        for places in [0, 131_087, 131_088] {
            let expected = match (length, places) {
                (65_536, 131_088) => Ok(131_088),
                (65_536, _) => Err(9),
                _ => Err(1),
            };
            let memory = vec![7; length];
            for (p, d) in [(&memory, &vec![7; 65_536]), (&vec![7; 65_536], &memory)] {
                let mut destination = vec![0xEE; places];
                let answer = save(&State::reset(), p, d, &mut destination);
                assert_eq!(answer, expected);
                let kept = destination.iter().all(|&byte| byte == 0xEE);
                assert_eq!(kept, expected.is_err());
            }
        }
    }
}
