//! L5's usage sheet. Sentences in quotation marks are that request's.

use crate::board::{Board, COUNTED};
use crate::random::Random;
use crate::usage::{usage, worked_out};
use reference::run::Returned;
use reference::sheet::{Fed, Sheet};
use reference::usage::Usage;

/// A sheet of these counts.
fn sheet(counts: Usage, runs: u16) -> Sheet {
    Sheet {
        kinds: counts.kinds,
        taken: counts.taken,
        reads: counts.reads,
        writes: counts.writes,
        runs,
    }
}

/// Count k of all 51, kinds first, then the lines taken, then reads, then writes.
fn count(counts: &mut Usage, k: usize) -> &mut u64 {
    match k {
        0..=33 => &mut counts.kinds[k],
        34 => &mut counts.taken,
        35..=42 => &mut counts.reads[k - 35],
        _ => &mut counts.writes[k - 43],
    }
}

/// Counts that are all different: count k is `start` + `step` · k.
fn ascending(start: u64, step: u64) -> Usage {
    let mut counts = Usage::default();
    (0..51).for_each(|k| *count(&mut counts, k) = start + step * k as u64);
    counts
}

fn accepted(sheet: Sheet) -> Fed {
    Fed { sheet, refusal: 0 }
}

#[test]
fn the_empty_sheet_and_two_runs_by_hand() {
    assert_eq!(Sheet::empty(), sheet(usage(&[], &[], &[]), 0));
    let once = Sheet::empty().feed(0, ascending(1, 1));
    assert_eq!(once, accepted(sheet(ascending(1, 1), 1)));
    let twice = once.sheet.feed(0, ascending(100, 2));
    assert_eq!(twice, accepted(sheet(ascending(101, 3), 2)));
}

#[test]
fn a_refused_run_adds_nothing_at_any_count() {
    for runs in [0, 7, 65_534, 65_535] {
        for run_refusal in [1, 5, 6, 13, 255] {
            for counts in [usage(&[], &[], &[]), ascending(1, 1)] {
                let before = sheet(ascending(9, 5), runs);
                assert_eq!(before.feed(run_refusal, counts), accepted(before));
            }
        }
    }
}

#[test]
fn thirteen_after_65_535_accepted_runs() {
    let mut kept = Sheet::empty();
    for at in 0..65_535_u16 {
        // A refused run before each, which doesn't count.
        kept = kept.feed(5, ascending(7, 7)).sheet;
        let fed = kept.feed(0, ascending(1, 1));
        assert_eq!((fed.refusal, fed.sheet.runs), (0, at + 1));
        kept = fed.sheet;
    }
    assert_eq!(kept, sheet(ascending(65_535, 65_535), 65_535));
    for counts in [usage(&[], &[], &[]), ascending(1, 1)] {
        let fed = kept.feed(0, counts);
        let refused = Fed {
            sheet: kept,
            refusal: 13,
        };
        assert_eq!(fed, refused);
    }
    assert_eq!(kept.feed(5, ascending(1, 1)), accepted(kept));
}

#[test]
fn each_count_wraps_alone() {
    const MAX: u64 = u64::MAX;
    for k in 0..51 {
        for (before, added, after) in [
            (MAX, 1, 0),
            (1, MAX, 0),
            (MAX, MAX, MAX - 1),
            (MAX - 1, 1, MAX),
            (1 << 63, 1 << 63, 0),
            (0xFFFF_FFFF, 1, 1 << 32),
        ] {
            let one = |x: u64| {
                let mut counts = ascending(1_000, 1);
                *count(&mut counts, k) = x;
                counts
            };
            let mut expected = ascending(2_000, 2);
            *count(&mut expected, k) = after;
            let fed = sheet(one(before), 3).feed(0, one(added));
            assert_eq!(fed, accepted(sheet(expected, 4)), "{k}");
        }
    }
}

/// Feeds these to an empty sheet, none of them refused.
fn fed_all(runs: &[Returned]) -> Sheet {
    runs.iter().fold(Sheet::empty(), |kept, run| {
        let fed = kept.feed(run.reply.refusal(), run.usage);
        assert_eq!(fed.refusal, 0);
        fed.sheet
    })
}

#[test]
fn any_order_gives_the_sheet_of_the_plain_machine_s_steps() {
    let mut random = Random::new(0x5EE7);
    let (mut runs, mut worked, mut steps) = (Vec::new(), Vec::new(), 0);
    for _ in 0..60 {
        let mut board = Board::random(&mut random);
        if random.below(4) == 0 {
            board.s.pc += 1;
        }
        let start = board.clone();
        let run = COUNTED[random.below(3) as usize];
        let returned = board.counted(run, random.below(300) as u32, &mut [0; 9]);
        runs.push(returned);
        if returned.reply.refusal() == 0 {
            steps += u64::from(returned.reply.steps());
            worked.push(worked_out(start, returned.reply.steps()).0);
        }
    }
    let mut expected = Usage::default();
    for mut counts in worked.iter().copied() {
        (0..51).for_each(|k| *count(&mut expected, k) += *count(&mut counts, k));
    }
    assert!(worked.len() < runs.len());
    // "The sheet equals one worked out from the plain machine's steps, in
    // whichever order the runs are fed."
    for _ in 0..20 {
        let found = fed_all(&runs);
        assert_eq!(found, sheet(expected, worked.len() as u16));
        // "kind counts sum to the steps the runs reported", with L12's taken lines
        assert_eq!(found.kinds.iter().sum::<u64>() + found.taken, steps);
        random.shuffle(&mut runs);
    }
}

#[test]
fn host_steps_fed_one_by_one_are_the_run() {
    let mut board = Board::random(&mut Random::new(0x4057));
    let mut pieces = board.clone();
    let whole = board.counted(COUNTED[0], 500, &mut [0; 500]);
    let steps = whole.reply.steps();
    let parts: Vec<Returned> = (0..steps)
        .map(|_| pieces.counted(COUNTED[2], 1, &mut [0]))
        .collect();
    assert!(steps > 100, "{steps}");
    assert_eq!(fed_all(&parts), sheet(whole.usage, steps as u16));
}
