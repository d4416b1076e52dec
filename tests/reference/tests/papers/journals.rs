//! Runs that keep a journal. Sentences in quotation marks are request L7's.

use crate::board::{Board, COUNTED, ENGINES, JOURNALED};
use crate::divisors::with_division_at;
use crate::random::Random;
use crate::runs::{done, three_outs};

/// What no run leaves at a place, by this coding.
pub const UNTOUCHED: u64 = 0xEEEE;

/// Which places aren't as they were.
fn written(journal: &[u64]) -> Vec<usize> {
    let places = 0..journal.len();
    places.filter(|&at| journal[at] != UNTOUCHED).collect()
}

#[test]
fn one_entry_a_step_at_the_place_of_the_count() {
    for run in JOURNALED {
        let mut board = three_outs();
        let mut journal = [UNTOUCHED; 6];
        assert_eq!(board.s.journaled, 0);
        for (budget, reply, count) in [
            (2, (0, 2, 1), 2),
            (0, (0, 0, 0), 2),
            (1, (0, 1, 1), 3),
            (9, (1, 1, 1), 4),
            (9, (1, 0, 0), 4),
        ] {
            let returned = board.journaled(run, budget, &mut [0; 9], &mut journal);
            assert_eq!(done(returned.reply), reply);
            assert_eq!(board.s.journaled, count);
            assert_eq!(written(&journal), (0..count as usize).collect::<Vec<_>>());
        }
    }
}

#[test]
fn the_next_goes_to_the_place_of_the_count_whatever_it_is() {
    for run in JOURNALED {
        let mut board = three_outs();
        board.s.journaled = 4;
        let mut journal = [UNTOUCHED; 9];
        board.journaled(run, 2, &mut [0; 9], &mut journal);
        assert_eq!(board.s.journaled, 6);
        assert_eq!(written(&journal), [4, 5]);
    }
}

/// A board whose state has counted so many entries.
fn counting(journaled: u64) -> Board {
    let mut board = three_outs();
    board.s.journaled = journaled;
    board
}

#[test]
fn an_accepted_run_without_a_journal_counts_from_0() {
    for budget in [0, 1, 9] {
        for run in COUNTED {
            let mut board = counting(7);
            board.counted(run, budget, &mut [0; 9]);
            assert_eq!(board.s.journaled, 0);
        }
        for engine in ENGINES {
            let mut board = counting(u64::MAX);
            board.run(engine, budget, &mut [0; 9]);
            assert_eq!(board.s.journaled, 0);
        }
    }
}

#[test]
fn a_step_alone_leaves_the_count() {
    for engine in ENGINES {
        let mut board = counting(7);
        board.step(engine);
        assert_eq!((board.s.n, board.s.journaled), (1, 7));
    }
}

#[test]
fn a_refused_run_leaves_count_and_journal() {
    let with = |change: fn(&mut Board)| {
        let mut board = counting(2);
        change(&mut board);
        board
    };
    for (number, before) in [
        (1, with(|board| board.p.truncate(65_535))),
        (1, with(|board| board.d.push(0))),
        (1, with(|board| board.i.truncate(255))),
        (1, with(|board| board.o.push(0))),
        (5, with(|board| board.s.pc = 1)),
        (6, with(|board| board.s.n = u32::MAX)),
    ] {
        for run in JOURNALED {
            let mut board = before.clone();
            let mut journal = [UNTOUCHED; 6];
            let returned = board.journaled(run, 1, &mut [0; 9], &mut journal);
            assert_eq!(returned.reply.refusal(), number);
            assert!(board == before);
            assert_eq!(journal, [UNTOUCHED; 6]);
        }
        for run in COUNTED {
            let mut board = before.clone();
            assert_eq!(board.counted(run, 1, &mut []).reply.refusal(), number);
            assert!(board == before);
        }
    }
}

#[test]
fn a_full_journal_counts_as_a_used_budget() {
    // Four steps, then an unassigned word; two steps, then a zero divisor.
    for (before, ending, possible) in [(three_outs(), 1, 4), (with_division_at(2, 4), 3, 2)] {
        for (places, budget) in (0..7).flat_map(|places| (0..7).map(move |budget| (places, budget)))
        {
            for run in JOURNALED {
                let mut board = before.clone();
                let mut journal = vec![UNTOUCHED; places as usize];
                let returned = board.journaled(run, budget, &mut [0; 9], &mut journal);
                let (stop, steps, _) = done(returned.reply);
                let lesser = budget.min(places);
                let expected = match lesser > possible {
                    true => (ending, possible),
                    false => (0, lesser),
                };
                assert_eq!((stop, steps), expected);
                assert_eq!(board.s.journaled, steps.into());
            }
        }
    }
}

#[test]
fn a_full_journal_comes_before_a_full_log() {
    for run in JOURNALED {
        for (places, stop) in [(0, 0), (1, 0), (2, 2), (9, 2)] {
            // MOVI, then an OUT that the log can't hold
            let mut board = three_outs();
            let mut journal = vec![UNTOUCHED; places];
            let returned = board.journaled(run, 9, &mut [], &mut journal);
            assert_eq!(done(returned.reply), (stop, places.min(1) as u32, 0));
        }
    }
}

#[test]
fn a_count_at_or_past_the_length_is_a_full_journal() {
    for (places, count) in [(0, 0), (0, 1), (3, 3), (3, 4), (3, 1 << 32), (3, u64::MAX)] {
        for run in JOURNALED {
            let before = counting(count);
            let mut board = before.clone();
            let mut journal = vec![UNTOUCHED; places];
            let returned = board.journaled(run, 9, &mut [0; 9], &mut journal);
            assert_eq!(done(returned.reply), (0, 0, 0));
            assert!(board == before);
            assert_eq!(written(&journal), []);
        }
    }
}

#[test]
fn six_is_by_the_budget_as_handed() {
    for run in JOURNALED {
        for (n, budget, number) in [
            (u32::MAX - 10, 10, 0),
            (u32::MAX - 10, 11, 6),
            (1, u32::MAX, 6),
            (0, u32::MAX, 0),
        ] {
            let mut board = three_outs();
            board.s.n = n;
            let returned = board.journaled(run, budget, &mut [0; 9], &mut [UNTOUCHED; 2]);
            assert_eq!(returned.reply.refusal(), number);
        }
    }
}

/// "a full journal counts as a used budget, also in the comparison of step
/// counts, and lists that are alike have and leave the same lent journals"
#[test]
fn random_runs_are_those_of_the_lesser_budget() {
    let mut random = Random::new(0x10_0BAC);
    let mut full = 0;
    for _ in 0..200 {
        let start = Board::random(&mut random);
        let (budget, places) = (random.below(400) as u32, random.below(400) as u32);
        let mut logs = [(); 3].map(|()| vec![0; 30]);
        let mut journals = [(); 2].map(|()| vec![UNTOUCHED; places as usize]);
        let mut plain = start.clone();
        let expected = plain.counted(COUNTED[0], budget.min(places), &mut logs[2]);
        for (k, run) in JOURNALED.into_iter().enumerate() {
            let mut board = start.clone();
            let found = board.journaled(run, budget, &mut logs[k], &mut journals[k]);
            assert_eq!(done(found.reply), done(expected.reply));
            assert_eq!(found.usage, expected.usage);
            let steps = u64::from(found.reply.steps());
            assert_eq!(board.s.journaled, steps);
            board.s.journaled = 0;
            assert!(board == plain);
            assert_eq!(logs[k], logs[2]);
            full += u32::from(steps == u64::from(places) && places < budget);
        }
        assert_eq!(journals[0], journals[1]);
    }
    assert!(full > 50, "{full}");
}
