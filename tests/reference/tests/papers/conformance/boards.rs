//! The cases of `conformance` on the single-memory board.

use super::count;
use crate::board::Board;
use crate::refusals::answer_for;
use reference::conformance::{lines, number, storing_file};
use reference::instruction::{read, Kind};
use reference::machine::Memories;
use reference::run::Engine;

#[test]
fn words_of_the_cases_that_store_into_themselves() {
    for c in 80..86 {
        let file = storing_file(c);
        assert_eq!(file.len() as u64, 16 + 64 + number(c, 1) % 300);
        let words = file[16..].chunks(2).take(30);
        for (j, bytes) in (0..).zip(words) {
            let of = number(c, 1_000 + j);
            if number(c, 4_000 + j) & 1 == 0 {
                let w = u16::from_le_bytes([bytes[0], bytes[1]]);
                let x = read(w).expect("an instruction");
                let kind = [Kind::St, Kind::Stb][of as usize & 1];
                assert_eq!((x.kind, x.a, x.b as u64), (kind, 0, of >> 1 & 7));
                assert_eq!(x.n as u16 & 63, (of >> 4 & 63) as u16);
            }
        }
    }
}

/// How many of the first 200 steps are on a word that a step before changed.
fn changed_steps(mut board: Board) -> u32 {
    let first = board.d.clone();
    let mut changed = 0;
    for _ in 0..200 {
        let at = usize::from(board.s.pc);
        changed += u32::from(first[at..at + 2] != board.d[at..at + 2]);
        if board.step(Engine::Rules).is_none() {
            board.s.pc = board.s.pc.wrapping_add(2);
        }
    }
    changed
}

#[test]
fn cases_execute_what_they_stored() {
    let changed: Vec<u32> = (80..86)
        .map(|c| answer_for(Memories::Single, &storing_file(c)).unwrap())
        .map(changed_steps)
        .collect();
    assert!(
        changed.iter().filter(|&&x| x > 5).count() > 3,
        "{changed:?}"
    );
}

#[test]
fn the_board_of_every_reply() {
    let lines = lines();
    for c in 80..86 {
        let start = format!("board {c}");
        assert_eq!(count(&lines, &start), 6);
        assert_eq!(count(&lines, &format!("{start} 1")), 6);
    }
    for (load, board) in [
        ("load 86 0 ", "board 86 1"),
        ("load 87 15 ", "board 87 0"),
        ("load 88 0 ", "board 88 0"),
    ] {
        let mut pairs = lines.windows(2);
        assert!(pairs.any(|x| x[0].starts_with(load) && x[1] == board));
    }
}
