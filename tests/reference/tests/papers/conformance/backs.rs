//! The calls of `conformance` with a journal: the count after each, worked out
//! from what the lines say.

use super::count;
use reference::conformance::{lines, number};

/// The counts that the host keeps.
#[derive(Clone, Copy, Default)]
struct Kept {
    n: u64,
    journaled: u64,
}

/// Call j of case c with a journal.
struct Call {
    c: u64,
    j: u64,
}

impl Call {
    fn number(&self, k: u64) -> u64 {
        number(self.c, 7_000 + 16 * self.j + k)
    }

    /// What is special of it.
    fn special(&self) -> u64 {
        self.number(3) % 16
    }

    fn places(&self) -> u64 {
        match self.special() {
            4 => self.number(4) % 8,
            _ => 8 + number(self.c, 7) % 200,
        }
    }

    /// 1 and 5 of runs and goings back.
    fn refusal(&self) -> u64 {
        match self.special() {
            0 => 5,
            2 | 3 => 1,
            _ => 0,
        }
    }
}

/// The numbers of the line from this word on.
fn numbers(line: &str, from: usize) -> Vec<u64> {
    let words = line.split(' ').skip(from);
    words.map(|word| word.parse().unwrap()).collect()
}

/// Asserts the counts of a run's line; what the host keeps after it.
fn after_run(kept: Kept, call: &Call, line: &str) -> Kept {
    let x = numbers(line, 4);
    let (refusal, stop, steps, ticks, journaled) = (x[0], x[1], x[2], x[4], x[6]);
    assert!((3 * steps..=4 * steps).contains(&ticks), "{line}");
    assert_eq!(refusal, call.refusal(), "{line}");
    if refusal != 0 {
        assert_eq!((steps, journaled), (0, kept.journaled), "{line}");
        return kept;
    }
    let n = match call.special() {
        1 => 4_294_967_000,
        _ => kept.n,
    };
    let budget = call.number(1) % 60;
    let (expected, most) = match call.special() {
        5 => (0, budget),
        _ => {
            let room = call.places().saturating_sub(kept.journaled);
            (kept.journaled + steps, budget.min(room))
        }
    };
    assert_eq!(journaled, expected, "{line}");
    assert!(steps <= most && (stop != 0 || steps == most), "{line}");
    Kept {
        n: n + steps,
        journaled: if matches!(stop, 0 | 2) { journaled } else { 0 },
    }
}

/// The same of a line of going back, with k.
fn after_back(kept: Kept, call: &Call, line: &str) -> (Kept, u64) {
    let n = match call.special() {
        1 => kept.n.min(3),
        _ => kept.n,
    };
    let k = match call.number(2) % 4 {
        0 => kept.journaled,
        1 => kept.journaled + 1,
        _ => call.number(1) % 20,
    };
    let held = match call.places() < kept.journaled {
        true => 0,
        false => kept.journaled.min(n),
    };
    let expected = match call.refusal() {
        0 if k > held => 14,
        refusal => refusal,
    };
    let x = numbers(line, 3);
    let (refusal, fallen, journaled) = (x[0], x[1], x[2]);
    assert_eq!(refusal, expected, "{line}");
    let gone = if refusal == 0 { k } else { 0 };
    assert_eq!(journaled, kept.journaled - gone, "{line}");
    assert!(fallen <= gone, "{line}");
    let n = if refusal == 0 { n - k } else { kept.n };
    (Kept { n, journaled }, gone)
}

/// Asserts the counts of so many lines of case c, a call being a set where
/// number(c, q) mod 8 is below `sets`: goings back by a step or more, and steps
/// gone back.
fn follow(lines: &[String], c: u64, sets: u64) -> (u64, u64) {
    let mut kept = Kept::default();
    let (mut backs, mut gone) = (0, 0);
    for (j, line) in (0..).zip(lines) {
        let call = Call { c, j };
        let (start, sort) = match call.number(0) % 8 {
            sort if sort < sets => ("set", 0),
            0..=3 => ("journal rules", 1),
            4 | 5 => ("journal table", 1),
            _ => ("back", 2),
        };
        assert!(line.starts_with(&format!("{start} {c} {j} ")), "{line}");
        if sort == 1 {
            kept = after_run(kept, &call, line);
        }
        if sort == 2 {
            let (after, k) = after_back(kept, &call, line);
            kept = after;
            gone += k;
            backs += u64::from(k > 0);
        }
    }
    (backs, gone)
}

/// The case of a line, its second word.
fn case_of(line: &str) -> u64 {
    numbers(line, 1)[0]
}

#[test]
fn twelve_calls_after_each_second_load() {
    let lines = lines();
    let (mut backs, mut gone, mut cases) = (0, 0, 0);
    for at in (0..lines.len()).filter(|&at| lines[at].starts_with("again ")) {
        // Two more saves come first, and from case 80 on lines of the board.
        let c = case_of(&lines[at]);
        let first = at + if c < 80 { 3 } else { 6 };
        let (more, steps) = follow(&lines[first..first + 12], c, 1);
        (backs, gone, cases) = (backs + more, gone + steps, cases + 1);
    }
    assert_eq!(cases, count(&lines, "again"));
    assert!(backs > 20 && gone > 500, "{backs}, {gone}");
}

#[test]
fn twenty_four_calls_with_keys() {
    let lines = lines();
    let first = lines.iter().position(|line| line.starts_with("load 64 "));
    let first = first.expect("the first case of keys");
    let (mut backs, mut gone) = (0, 0);
    for (c, case) in (64..80).zip(lines[first..].chunks(25)) {
        assert!(case[0].starts_with(&format!("load {c} 0 ")), "{}", case[0]);
        let (more, steps) = follow(&case[1..], c, 2);
        (backs, gone) = (backs + more, gone + steps);
    }
    assert!(backs > 20 && gone > 200, "{backs}, {gone}");
}
