//! Going back. Sentences in quotation marks are request L7's.

use crate::board::{Board, Engine, Journaled, COUNTED, JOURNALED};
use crate::journals::UNTOUCHED;
use crate::random::Random;
use crate::refusals::{lengths, noisy};
use crate::runs::{done, three_outs};
use crate::words::unassigned;
use reference::back::Back;
use reference::machine::{is_out, State};
use reference::set::set;

/// Runs and keeps a journal of so many places.
fn run(board: &mut Board, run: Journaled, budget: u32, places: usize) -> Vec<u64> {
    let mut journal = vec![UNTOUCHED; places];
    board.journaled(run, budget, &mut vec![0; places], &mut journal);
    journal
}

/// The log entries that fell away; panics where going back was refused.
fn fallen(back: Back) -> u64 {
    assert_eq!(back.refusal(), 0, "{back:?}");
    back.fallen()
}

#[test]
fn one_step_of_every_word_and_back() {
    let mut before = Board::random(&mut Random::new(0xBAC));
    before.i[0] = 5;
    let mut board = before.clone();
    let mut steps = 0;
    for w in 0..=0xFFFF_u16 {
        for with_journal in JOURNALED {
            before.put(before.s.pc, w);
            board.put(before.s.pc, w);
            let journal = run(&mut board, with_journal, 1, 1);
            let k = board.s.journaled;
            let out = k == 1 && is_out(w);
            assert_eq!(fallen(board.back(&journal, k)), u64::from(out), "{w:04X}");
            assert!(board == before, "{w:04X}");
            steps += k;
        }
    }
    let assigned = (0..=0xFFFF).filter(|&w| !unassigned(w)).count() as u64;
    assert!(steps > 2 * assigned - 2_048, "{steps}");
}

#[test]
fn what_each_sort_of_step_overwrote() {
    // JALR R1,R1; STB 1(R2),R3; ST 0(R2),R3; OUT 7,R3; BZ R0,-1; MOVHI R4,0x12
    for (w, changed) in [
        (0x7240, "a register and PC"),
        (0x64C1, "a byte"),
        (0x44C0, "a word"),
        (0xA707, "an output"),
        (0x80FF, "nothing"),
        (0x9912, "a register"),
    ] {
        let mut before = Board::at(0x0100, w, &[(1, 0x0301), (2, 0x0400), (3, 0xABCD)]);
        before.d[0x0400..0x0402].copy_from_slice(&[0x11, 0x22]);
        before.o[7] = 0x3333;
        for with_journal in JOURNALED {
            let mut board = before.clone();
            let journal = run(&mut board, with_journal, 1, 1);
            assert_eq!((board.s.n, board.s.journaled), (1, 1));
            board.back(&journal, 1);
            assert!(board == before, "{changed}");
        }
    }
}

/// "restores registers, PC, n, data and outputs to the plain machine's k steps
/// earlier, and says how many log entries fall away"
#[test]
fn k_steps_back_is_the_plain_machine_k_steps_earlier() {
    let mut random = Random::new(0xBAC2);
    let (mut gone_back, mut total) = (0, 0);
    for at in 0..200 {
        let start = Board::random(&mut random);
        let mut board = start.clone();
        let journal = run(&mut board, JOURNALED[at % 2], 300, 300);
        let steps = board.s.journaled;
        let k = random.below(steps + 1);
        let mut earlier = start;
        let mut log = vec![0; 300];
        let entries = |board: &mut Board, steps: u64, log: &mut [u64]| {
            done(board.run(Engine::Rules, steps as u32, log)).2
        };
        let mut last = earlier.clone();
        let in_all = entries(&mut last, steps, &mut log);
        let before = entries(&mut earlier, steps - k, &mut log);
        earlier.s.journaled = steps - k;
        assert_eq!(fallen(board.back(&journal, k)), u64::from(in_all - before));
        assert!(board == earlier);
        gone_back += k;
        total += in_all - before;
    }
    assert!(gone_back > 5_000 && total > 200, "{gone_back}, {total}");
}

#[test]
fn inputs_set_in_between_stay_as_set() {
    // IN R1,9; IN R2,9; unassigned
    let mut board = Board::with(&[0xA209, 0xA409, 0xF000]);
    let mut journal = [UNTOUCHED; 4];
    board.i[9] = 5;
    board.journaled(JOURNALED[0], 1, &mut [], &mut journal);
    set(&mut board.i, 9, 6).unwrap();
    board.journaled(JOURNALED[1], 1, &mut [], &mut journal);
    assert_eq!(board.s.r[1..3], [5, 6]);
    set(&mut board.i, 8, 7).unwrap();
    assert_eq!(fallen(board.back(&journal, 2)), 0);
    assert_eq!(board.s, State::reset());
    assert_eq!((board.i[9], board.i[8]), (6, 7));
}

#[test]
fn running_forward_again_reproduces_log_and_journal() {
    let mut random = Random::new(0xF02);
    for at in 0..100 {
        let mut board = Board::random(&mut random);
        let mut journal = vec![UNTOUCHED; 250];
        let mut log = vec![0; 250];
        board.journaled(JOURNALED[at % 2], 250, &mut log, &mut journal);
        let (last, kept) = (board.clone(), journal.clone());
        let k = random.below(board.s.journaled + 1);
        let fell = fallen(board.back(&journal, k)) as usize;
        let mut again = vec![0; fell];
        let other = JOURNALED[random.below(2) as usize];
        let mut plain = board.clone();
        let returned = board.journaled(other, k as u32, &mut again, &mut journal);
        assert_eq!(done(returned.reply), (0, k as u32, fell as u32));
        assert!(board == last);
        assert_eq!(journal, kept);
        let entries = log.iter().rposition(|&x| x != 0).map_or(0, |at| at + 1);
        assert_eq!(again, log[entries - fell..entries]);
        // Without a journal too.
        let mut without = vec![0; fell];
        plain.counted(COUNTED[at % 2], k as u32, &mut without);
        plain.s.journaled = last.s.journaled;
        assert!(plain == last);
        assert_eq!(without, again);
    }
}

/// Asserts what going back k from here is refused with, that nothing changed then,
/// and what else it left.
fn check(before: &Board, places: usize, k: u64, number: u8) {
    let mut board = before.clone();
    let back = board.back(&vec![0; places], k);
    assert_eq!(back.refusal(), number, "{:?} {places} {k}", before.s);
    if number == 0 {
        let counts = (board.s.n, board.s.journaled);
        let expected = (before.s.n - k as u32, before.s.journaled - k);
        assert_eq!(counts, expected);
    } else {
        assert_eq!(back.fallen(), 0);
        assert!(board == *before);
    }
}

/// "the steps a journal holds are the lesser of that count and n, or none if it
/// is shorter than that count"
#[test]
fn fourteen_where_the_journal_holds_fewer_than_k_steps() {
    for (count, n, places, held) in [
        (0, 0, 0, 0),
        (0, 9, 4, 0),
        (3, 9, 3, 3),
        (3, 9, 8, 3),
        (3, 3, 3, 3),
        (3, 2, 3, 2),
        (3, 0, 3, 0),
        (3, 9, 2, 0),
        (3, 9, 0, 0),
        (1 << 32, u32::MAX, 3, 0),
        (u64::MAX, u32::MAX, 3, 0),
    ] {
        let mut board = noisy();
        (board.s.journaled, board.s.n) = (count, n);
        (0..=held).for_each(|k| check(&board, places, k, 0));
        for k in [held + 1, held + 2, 1 << 32, u64::MAX] {
            check(&board, places, k, 14);
        }
    }
}

/// "14, journal holds fewer than k steps, after 1 and 5"
#[test]
fn one_then_five_then_fourteen() {
    for (place, pc, k) in (0..4).flat_map(|x| [(x, 0, 1), (x, 0, 9), (x, 1, 1), (x, 1, 9)]) {
        for length in lengths(if place < 2 { 65_536 } else { 256 }) {
            let mut board = noisy();
            board.s = State {
                pc,
                n: 5,
                journaled: 3,
                ..board.s
            };
            match place {
                0 => board.p.resize(length, 7),
                1 => board.d.resize(length, 7),
                2 => board.i.resize(length, 7),
                _ => board.o.resize(length, 7),
            }
            let right = length == 65_536 || length == 256;
            let expected = match (right, pc, k) {
                (false, ..) => 1,
                (_, 1, _) => 5,
                (.., 9) => 14,
                _ => 0,
            };
            check(&board, 3, k, expected);
        }
    }
}

#[test]
fn a_plain_run_ends_what_can_be_gone_back() {
    for (at, plain) in COUNTED.into_iter().enumerate() {
        let mut board = three_outs();
        let journal = run(&mut board, JOURNALED[at % 2], 2, 9);
        check(&board, 9, 2, 0);
        let mut refused = board.clone();
        refused.s.pc += 1;
        refused.counted(plain, 1, &mut [0; 9]);
        refused.s.pc -= 1;
        check(&refused, 9, 2, 0);
        board.counted(plain, 0, &mut [0; 9]);
        assert_eq!(board.back(&journal, 1).refusal(), 14);
        assert_eq!(board.back(&journal, 0).refusal(), 0);
    }
}

/// How many places differ.
fn changed<T: PartialEq>(before: &[T], after: &[T]) -> u64 {
    let pairs = before.iter().zip(after);
    pairs.filter(|(x, y)| x != y).count() as u64
}

#[test]
fn a_journal_of_any_numbers() {
    let mut random = Random::new(0xA111);
    let mut odd = 0;
    for _ in 0..200 {
        let mut before = noisy();
        let places = random.below(40);
        before.s.journaled = random.below(places + 3);
        before.s.n = random.below(60) as u32;
        let journal: Vec<u64> = (0..places).map(|_| random.next()).collect();
        let k = random.below(places + 2);
        let mut board = before.clone();
        let back = board.back(&journal, k);
        let shorter = places < before.s.journaled;
        let held = if shorter { 0 } else { before.s.journaled };
        let expected = if k > held.min(before.s.n.into()) {
            14
        } else {
            0
        };
        assert_eq!(back.refusal(), expected);
        let gone = if expected == 0 { k } else { 0 };
        assert_eq!(u64::from(board.s.n), u64::from(before.s.n) - gone);
        assert_eq!(board.s.journaled, before.s.journaled - gone);
        assert!(changed(&before.d, &board.d) <= 2 * gone);
        assert!(changed(&before.o, &board.o) <= back.fallen() && back.fallen() <= gone);
        // L8: input 0 alone
        assert!((&board.p, &board.i[1..]) == (&before.p, &before.i[1..]));
        odd += board.s.pc % 2;
    }
    assert!(odd > 10, "{odd}");
}
