//! Pages of several trims. Sentences in quotation marks are request L13's.

use crate::board::{Board, COUNTED};
use crate::locked::locked;
use crate::random::Random;
use crate::refusals::noisy;
use crate::runs::{done, entry, three_outs};
use reference::machine::{Lent, State};
use reference::page::{page_by_rules, page_by_table, Page, TRIMS};

/// A page by either engine.
type PageBy = fn([State; TRIMS], u8, Lent, u32, &mut [u64]) -> Page;

const PAGES: [PageBy; 2] = [page_by_rules, page_by_table];

/// What a page is handed and lent.
#[derive(Clone, Debug, PartialEq, Eq)]
struct Joined {
    states: [State; TRIMS],
    p: Vec<u8>,
    d: Vec<u8>,
    i: Vec<u16>,
    o: Vec<u16>,
}

impl Joined {
    /// The boards joined in order; the states past them are noise.
    fn of(boards: &[Board]) -> Joined {
        let mut states = [noisy().s; TRIMS];
        for (state, board) in states.iter_mut().zip(boards) {
            *state = board.s;
        }
        let bytes = |part: fn(&Board) -> &Vec<u8>| boards.iter().flat_map(part).copied();
        let words = |part: fn(&Board) -> &Vec<u16>| boards.iter().flat_map(part).copied();
        Joined {
            states,
            p: bytes(|board| &board.p).collect(),
            d: bytes(|board| &board.d).collect(),
            i: words(|board| &board.i).collect(),
            o: words(|board| &board.o).collect(),
        }
    }

    /// The page, whose states are kept.
    fn page(&mut self, page: PageBy, count: u8, budget: u32, log: &mut [u64]) -> Page {
        let lent = Lent {
            p: &self.p,
            d: &mut self.d,
            i: &mut self.i,
            o: &mut self.o,
        };
        let page = page(self.states, count, lent, budget, log);
        self.states = page.states;
        page
    }

    /// Trim k's part.
    fn board(&self, k: usize) -> Board {
        let (bytes, words) = (65_536 * k..65_536 * (k + 1), 256 * k..256 * (k + 1));
        Board {
            s: self.states[k],
            p: self.p[bytes.clone()].to_vec(),
            d: self.d[bytes].to_vec(),
            i: self.i[words.clone()].to_vec(),
            o: self.o[words].to_vec(),
        }
    }
}

/// ADDI R1,R1,1 and BZ R0,-2, for ever.
fn endless() -> Board {
    Board::with(&[0x2241, 0x80FE])
}

/// So many of ADDI R1,R1,1, then this word.
fn ending(steps: usize, w: u16) -> Board {
    let mut words = vec![0x2241; steps];
    words.push(w);
    Board::with(&words)
}

/// Stop and steps of each trim.
fn stops_and_steps(page: &Page) -> Vec<(u8, u32)> {
    assert_eq!(page.refusal, 0);
    page.answers.iter().map(|x| (x.stop, x.steps)).collect()
}

/// Asserts stops and steps by both engines, with no log.
fn check(boards: &[Board], budget: u32, expected: &[(u8, u32)]) {
    for page in PAGES {
        let mut joined = Joined::of(boards);
        let found = joined.page(page, boards.len() as u8, budget, &mut []);
        assert_eq!(stops_and_steps(&found), expected, "{budget}");
        for (state, &(_, steps)) in joined.states.iter().zip(expected) {
            assert_eq!(state.n, steps);
        }
    }
}

/// "In order, each gets B divided by their number, rounded down; what is unused then
/// goes whole to the first"
#[test]
fn what_is_unused_goes_whole_to_the_first() {
    let two = [endless(), endless()];
    for (budget, first, second) in [
        (0, 0, 0),
        (1, 1, 0),
        (2, 1, 1),
        (3, 2, 1),
        (9, 5, 4),
        (100, 50, 50),
    ] {
        check(&two, budget, &[(0, first), (0, second)]);
    }
    check(
        &[endless(), endless(), endless()],
        11,
        &[(0, 5), (0, 3), (0, 3)],
    );
    check(&[endless()], 7, &[(0, 7)]);
}

/// "what it leaves to the next, and so on"
#[test]
fn what_the_first_leaves_goes_to_the_next() {
    let stopped = || ending(2, 0xF000);
    check(&[stopped(), endless()], 20, &[(1, 2), (0, 18)]);
    check(&[endless(), stopped()], 20, &[(0, 18), (1, 2)]);
    // Eight to each; the first takes its last two, the second all others.
    let boards = [ending(10, 0xF000), endless(), ending(4, 0xF000)];
    check(&boards, 24, &[(1, 10), (0, 10), (1, 4)]);
    // None can go on: less than B.
    check(&[stopped(), ending(5, 0xB20C)], 100, &[(1, 2), (3, 5)]);
    check(&[stopped(), stopped()], 4, &[(0, 2), (0, 2)]);
    check(&[stopped(), stopped()], 5, &[(1, 2), (1, 2)]);
}

/// "A trim left nothing keeps its first stop reason."
#[test]
fn a_trim_left_nothing_keeps_its_first_stop_reason() {
    // An OUT with no place, a zero divisor, an unassigned word, after one step.
    for (w, stop) in [(0xA301, 2), (0xB20C, 3), (0xF000, 1)] {
        check(&[endless(), ending(1, w)], 10, &[(0, 9), (stop, 1)]);
        // Budget used just before it: the first run ends with 0, and stays so.
        check(&[endless(), ending(5, w)], 10, &[(0, 5), (0, 5)]);
        // One step is left to the second, which finds it.
        check(&[ending(4, w), ending(5, w)], 10, &[(stop, 4), (stop, 5)]);
    }
}

#[test]
fn fewer_steps_than_trims() {
    let eight: Vec<Board> = (0..8).map(|_| endless()).collect();
    for budget in 0..8 {
        let mut expected = [(0, 0); 8];
        expected[0].1 = budget;
        check(&eight, budget, &expected);
    }
    let mut expected = [(0, 1); 8];
    check(&eight, 8, &expected);
    expected[0].1 = 8;
    check(&eight, 15, &expected);
}

/// "the log in equal parts, rounded down"; "each log part filled further"
#[test]
fn the_log_s_parts() {
    for page in PAGES {
        for places in 0..12 {
            // MOVI, three OUTs, unassigned
            let mut joined = Joined::of(&[three_outs(), endless(), three_outs()]);
            let mut log = vec![0xEEEE; places];
            // Two steps each, then what is left
            let found = joined.page(page, 3, 8, &mut log);
            let part = places / 3;
            let mut expected = vec![0xEEEE; places];
            let outs = |most: usize| part.min(most);
            // The first gets the two that are left, where it has the places.
            let first = outs(3);
            let last = outs(1);
            (0..first).for_each(|k| expected[k] = entry(k as u64 + 1, k as u64 + 1, 7));
            (0..last).for_each(|k| expected[2 * part + k] = entry(k as u64 + 1, k as u64 + 1, 7));
            assert_eq!(log, expected, "{places}");
            let entries: Vec<u32> = found.answers.iter().map(|x| x.entries).collect();
            assert_eq!(entries, [first as u32, 0, last as u32]);
        }
    }
}

/// A board's page of one trim is the run.
#[test]
fn a_page_of_one_trim_is_a_run() {
    let mut random = Random::new(0x9A6E);
    for at in 0..40 {
        let board = Board::random(&mut random);
        let mut run = board.clone();
        let [mut log, mut of_page] = [[0xEEEE; 7]; 2];
        let returned = run.counted(COUNTED[at % 2], 300, &mut log);
        let mut joined = Joined::of(&[board]);
        let page = joined.page(PAGES[at % 2], 1, 300, &mut of_page);
        let answer = page.answers[0];
        let reply = (answer.stop, answer.steps, answer.entries);
        assert_eq!(reply, done(returned.reply));
        assert_eq!(
            (answer.ticks, answer.usage),
            (returned.ticks, returned.usage)
        );
        assert!(joined.board(0) == run && log == of_page);
    }
}

/// A refused page: its number, and nothing changed.
fn refused(before: &Joined, count: u8, budget: u32) -> u8 {
    let mut number = None;
    for page in PAGES {
        let mut joined = before.clone();
        let mut log = [0xEEEE; 9];
        let page = joined.page(page, count, budget, &mut log);
        if page.refusal != 0 {
            assert!(joined == *before && log == [0xEEEE; 9]);
            assert!(page.answers.is_empty());
        }
        assert_eq!(*number.get_or_insert(page.refusal), page.refusal);
    }
    number.unwrap()
}

/// "17, no trims or more than 8, before all other tests"
#[test]
fn seventeen_before_all_others() {
    let mut joined = Joined::of(&[endless(), endless()]);
    for odd in [false, true] {
        joined.states[0].pc = u16::from(odd);
        for count in (9..=255).chain([0]) {
            assert_eq!(refused(&joined, count, u32::MAX), 17);
        }
        // Lengths of two trims
        for count in [1, 3, 7, 8] {
            assert_eq!(refused(&joined, count, 1), 1);
        }
        assert_eq!(refused(&joined, 2, 1), if odd { 5 } else { 0 });
    }
    let eight: Vec<Board> = (0..8).map(|_| endless()).collect();
    assert_eq!(refused(&Joined::of(&eight), 8, 1), 0);
    assert_eq!(refused(&Joined::of(&eight), 9, 1), 17);
}

/// "1 testing the joined lengths"
#[test]
fn one_for_each_joined_length() {
    for count in 1..=3 {
        let boards: Vec<Board> = (0..count).map(|_| endless()).collect();
        let right = Joined::of(&boards);
        assert_eq!(refused(&right, count, 1), 0);
        for (place, longer) in (0..4).flat_map(|place| [(place, false), (place, true)]) {
            let mut joined = right.clone();
            // 1 before 5
            joined.states[0].pc = 1;
            let change = |length: usize| if longer { length + 1 } else { length - 1 };
            match place {
                0 => joined.p.resize(change(right.p.len()), 0),
                1 => joined.d.resize(change(right.d.len()), 0),
                2 => joined.i.resize(change(right.i.len()), 0),
                _ => joined.o.resize(change(right.o.len()), 0),
            }
            assert_eq!(refused(&joined, count, 1), 1);
        }
    }
}

/// "another refusal for any trim, 6 being tested with B, refuses the whole call, and
/// the first trim's counts"
#[test]
fn the_first_refused_trim_decides() {
    let three = Joined::of(&[endless(), endless(), endless()]);
    let with = |changes: &[(usize, u8)]| {
        let mut joined = three.clone();
        for &(k, number) in changes {
            match number {
                5 => joined.states[k].pc = 1,
                15 => joined.states[k].return_address = 1,
                _ => joined.states[k].n = u32::MAX - 9,
            }
        }
        joined
    };
    for (changes, budget, number) in [
        (&[(0, 5)][..], 0, 5),
        (&[(1, 5)], 0, 5),
        (&[(2, 15)], 0, 5),
        (&[(1, 6), (2, 5)], 10, 6),
        (&[(1, 5), (0, 6)], 10, 6),
        (&[(0, 5), (1, 6)], 10, 5),
        (&[(1, 5), (1, 6)], 10, 5),
        // B 10 is refused though the share is 3; B 9 isn't.
        (&[(0, 6)], 10, 6),
        (&[(2, 6)], 10, 6),
        (&[(2, 6)], 9, 0),
        (&[(0, 6), (1, 6), (2, 6)], 9, 0),
    ] {
        assert_eq!(refused(&with(changes), 3, budget), number, "{changes:?}");
    }
    // A state past the count isn't looked at.
    let mut joined = Joined::of(&[endless(), endless()]);
    joined.states[2].pc = 1;
    assert_eq!(refused(&joined, 2, 1), 0);
}

#[test]
fn greatest_budgets() {
    for page in PAGES {
        // Each stops at once, or soon.
        let boards = [ending(0, 0xF000), ending(7, 0xF000), ending(3, 0xF000)];
        let mut joined = Joined::of(&boards);
        let found = joined.page(page, 3, u32::MAX, &mut []);
        assert_eq!(stops_and_steps(&found), [(1, 0), (1, 7), (1, 3)]);
        // The most that n lets pass, for trims that stop soon.
        joined.states[1].n = 1;
        assert_eq!(joined.page(page, 3, u32::MAX, &mut []).refusal, 6);
        assert_eq!(joined.page(page, 3, u32::MAX - 7, &mut []).refusal, 0);
    }
}

/// L14: two pages whose trims differ in locked bytes alone are answered alike.
#[test]
fn pages_whose_trims_differ_in_locked_bytes_alone() {
    let mut random = Random::new(0x9A70);
    let mut stopped = 0;
    for at in 0..30 {
        let one: Vec<Board> = (0..2)
            .map(|_| locked(any_trim(&mut random), random.word() / 2, 0xC000))
            .collect();
        let mut other = one.clone();
        for board in &mut other {
            let range = board.s.first_locked.into()..=0xC000;
            board.d[range].fill_with(|| random.word() as u8);
        }
        let mut pages = [&one, &other].map(|boards| Joined::of(boards));
        let mut logs = [[0xEEEE; 9]; 2];
        let [first, second] =
            [0, 1].map(|k| pages[k].page(PAGES[(at + k) % 2], 2, 300, &mut logs[k]));
        assert!(first == second && logs[0] == logs[1]);
        stopped += first.answers.iter().filter(|x| x.stop == 4).count();
    }
    assert!(stopped > 10, "{stopped}");
}

/// A trim that stops soon, later or not at all, on either board, lines pending.
fn any_trim(random: &mut Random) -> Board {
    let board = match random.below(4) {
        0 => endless(),
        1 => ending(
            random.below(40) as usize,
            [0xF000, 0xA301, 0xB20C][random.below(3) as usize],
        ),
        _ => Board::random(random).with_lines(random),
    };
    let mut board = match random.below(2) {
        0 => board.on_single_memory(),
        _ => board,
    };
    board.s.enabled = random.below(2) as u8;
    board.s.journaled = random.below(3);
    board
}

/// Asserts what each trim's reply, state, memories and log part are: its own run's
/// "after its reported steps".
fn check_trim(before: &Board, joined: &Joined, page: &Page, k: usize, log: &[u64], budget: u32) {
    let answer = page.answers[k];
    let mut run = before.clone();
    let mut part = vec![0xEEEE; log.len()];
    // Where it stopped for another reason, any budget from its steps on but theirs
    // gives the same.
    let budget = if answer.stop == 0 {
        answer.steps
    } else {
        budget
    };
    let returned = run.counted(COUNTED[0], budget, &mut part);
    let reply = (answer.stop, answer.steps, answer.entries);
    assert_eq!(done(returned.reply), reply);
    assert_eq!(
        (answer.ticks, answer.usage),
        (returned.ticks, returned.usage)
    );
    assert!(joined.board(k) == run);
    assert_eq!(log, part);
}

#[test]
fn random_pages() {
    let mut random = Random::new(0x9A6F);
    // Pages that used B, and that did not; trims by stop.
    let (mut used, mut stops) = ([0, 0], [0; 4]);
    for at in 0..120 {
        let count = 1 + random.below(if at % 10 == 0 { 8 } else { 3 }) as usize;
        let boards: Vec<Board> = (0..count).map(|_| any_trim(&mut random)).collect();
        let limit = [3, 10, 100, 2_000][random.below(4) as usize];
        let budget = random.below(limit) as u32;
        let mut joined = Joined::of(&boards);
        let mut other = joined.clone();
        let places = random.below(60) as usize;
        let [mut log, mut others] = [(); 2].map(|_| vec![0xEEEE; places]);
        let page = joined.page(PAGES[0], count as u8, budget, &mut log);
        // Both engines alike
        let by_table = other.page(PAGES[1], count as u8, budget, &mut others);
        assert!(page == by_table && joined == other && log == others);
        let part = places / count;
        assert!(log[part * count..].iter().all(|&x| x == 0xEEEE));
        for (k, board) in boards.iter().enumerate() {
            let part = &log[part * k..part * (k + 1)];
            check_trim(board, &joined, &page, k, part, budget);
            // "Each trim does at least its share unless it stopped for another reason"
            let answer = page.answers[k];
            assert!(answer.stop != 0 || answer.steps >= budget / count as u32);
            stops[usize::from(answer.stop)] += 1;
        }
        // "Steps total at most B, less exactly when no trim ends with stop 0."
        let total: u32 = page.answers.iter().map(|x| x.steps).sum();
        let none = page.answers.iter().all(|x| x.stop != 0);
        assert!(total <= budget);
        assert_eq!(total < budget, none);
        used[usize::from(none)] += 1;
        assert_eq!(page.states[count..], Joined::of(&boards).states[count..]);
    }
    assert!(
        used.iter().all(|&x| x > 8) && stops.iter().all(|&x| x > 3),
        "{used:?} {stops:?}"
    );
}
