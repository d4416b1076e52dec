//! Pages of 0 to 9 trims, by both engines.

mod trims;

use crate::call::{header_state, header_usage, plain_state};
use crate::ffi::{self, Lent};
use crate::make::one_of;
use crate::random::Random;
use crate::world::{Lengths, World};
use crate::{random_of, seed};
use reference::machine::{self, State};
use reference::page::{page_by_rules, Page};
use trims::trim;

const CASES: u64 = 300;

/// The most trims.
const TRIMS: usize = 8;

/// The longest log lent.
const PLACES: u64 = 60;

/// What a page is handed, but for what is lent.
#[derive(Clone, Copy, Debug)]
struct Handed {
    states: [State; TRIMS],
    count: u8,
    budget: u32,
}

/// "In a refused page all eight answers have the page's refusal and are 0 else"; in an
/// accepted one those of trims past the count are 0.
fn header_page(page: &Page) -> ffi::Page {
    let none = ffi::Answer {
        refusal: page.refusal,
        stop: 0,
        steps: 0,
        entries: 0,
        ticks: 0,
        usage: header_usage(Default::default()),
    };
    let mut answers = [none; TRIMS];
    for (answer, x) in answers.iter_mut().zip(&page.answers) {
        *answer = ffi::Answer {
            stop: x.stop,
            steps: x.steps,
            entries: x.entries.into(),
            ticks: x.ticks,
            usage: header_usage(x.usage),
            ..none
        };
    }
    ffi::Page {
        trims: ffi::Trims {
            states: page.states.map(header_state),
        },
        refusal: page.refusal,
        answers,
    }
}

fn of_reference(handed: &Handed, lent: Lent) -> ffi::Page {
    let places = machine::Lent {
        p: lent.program,
        d: lent.memory,
        i: lent.inputs,
        o: lent.outputs,
    };
    let Handed {
        states,
        count,
        budget,
    } = *handed;
    header_page(&page_by_rules(states, count, places, budget, lent.log))
}

/// By the rules, or by the table.
fn of_library(handed: &Handed, mut lent: Lent, by_table: bool) -> ffi::Page {
    let page = match by_table {
        false => ffi::page_by_rules,
        true => ffi::page_by_table,
    };
    let trims = ffi::Trims {
        states: handed.states.map(header_state),
    };
    page(trims, handed.count, handed.budget, &mut lent)
}

/// The refusal, by the paper's sentences, where the lengths are right or not.
fn expected(handed: &Handed, right: bool) -> u8 {
    let trims = usize::from(handed.count);
    if !(1..=8).contains(&trims) {
        return 17;
    }
    if !right {
        return 1;
    }
    let numbers = handed.states[..trims].iter().map(|state| {
        let over = u64::from(state.n) + u64::from(handed.budget) > u64::from(u32::MAX);
        match (state.pc | state.return_address) % 2 {
            1 => 5,
            _ if over => 6,
            _ => 0,
        }
    });
    numbers.into_iter().find(|&number| number != 0).unwrap_or(0)
}

/// What was seen.
#[derive(Debug, Default)]
struct Counts {
    /// By refusal 0, 1, 5, 6, 17.
    refusals: [u64; 5],
    /// Trims by stop.
    stops: [u64; 5],
    /// Trims that did more than their share, and pages that used less than B.
    more: u64,
    less: u64,
    /// Pages with a budget over 4,000,000,000, by refusal 0 and 6.
    great: [u64; 2],
}

struct Pages {
    random: Random,
    /// The reference's, the library's by the rules, and by the table.
    worlds: [World; 3],
    states: [State; TRIMS],
    trims: usize,
    counts: Counts,
}

impl Pages {
    /// Other trims.
    fn fit(&mut self) {
        let most = one_of(&mut self.random, &[2, 3, 3, 4, 8]);
        self.trims = 1 + self.random.below(most) as usize;
        for k in 0..self.trims {
            let (words, state) = trim(&mut self.random);
            for world in &mut self.worlds {
                let lent = world.lend(&Lengths::joined(TRIMS, 0));
                let places = 65_536 * k..65_536 * (k + 1);
                for memory in [lent.program, lent.memory] {
                    let memory = &mut memory[places.clone()];
                    for (first, words) in &words {
                        let places = memory[*first..].chunks_mut(2).zip(words);
                        places.for_each(|(place, w)| place.copy_from_slice(&w.to_le_bytes()));
                    }
                }
            }
            self.states[k] = state;
        }
    }

    /// A budget about the number of trims, any, or a great one where all trims stop
    /// before it.
    fn budget(&mut self, handed: &Handed, lengths: &Lengths) -> u32 {
        let trims = self.trims as u32;
        let any = self.random.below(3_000) as u32;
        let edges = [
            0,
            1,
            trims - 1,
            trims,
            trims + 1,
            2 * trims + 1,
            60,
            any,
            any,
        ];
        let budget = one_of(&mut self.random, &edges);
        if self.random.below(4) > 0 {
            return budget;
        }
        let short = Handed {
            budget: 20_000,
            ..*handed
        };
        let mut world = self.worlds[0].clone();
        let page = of_reference(&short, world.lend(lengths));
        let most = handed.states[..self.trims]
            .iter()
            .map(|state| state.n)
            .max();
        let greatest = u32::MAX - most.unwrap_or(0);
        let stops = page.answers[..self.trims].iter().all(|x| x.stop != 0);
        match page.refusal == 0 && stops {
            true => one_of(
                &mut self.random,
                &[greatest, greatest.saturating_add(1), u32::MAX],
            ),
            false => budget,
        }
    }

    /// What is handed and lent, and whether the lengths are right.
    fn handed(&mut self) -> (Handed, Lengths, bool) {
        let places = self.random.below(PLACES + 1) as usize;
        let mut lengths =
            Lengths::joined(self.trims, one_of(&mut self.random, &[0, places, places]));
        let mut handed = Handed {
            states: self.states,
            count: self.trims as u8,
            budget: 0,
        };
        handed.budget = self.budget(&handed, &lengths);
        let random = &mut self.random;
        let one = random.below(self.trims as u64) as usize;
        match random.below(24) {
            0 => handed.count = one_of(random, &[0, 9, 255]),
            1 => handed.count = one_of(random, &[1, 7, 8, handed.count + 1]),
            2 => handed.states[one].pc |= 1,
            3 => handed.states[one].return_address |= 1,
            4 | 5 => {
                let greatest = u32::MAX - handed.budget;
                let n = [
                    greatest,
                    greatest.saturating_add(1),
                    greatest.saturating_sub(1),
                ];
                handed.states[one].n = one_of(random, &n);
            }
            6 | 7 => lengths.one_off(random),
            // Two trims, each with a refusal of its own.
            8 | 9 => {
                let other = random.below(self.trims as u64) as usize;
                handed.states[one].pc |= 1;
                handed.states[other].n = u32::MAX;
            }
            _ => {}
        }
        let right = lengths.are_joined(handed.count.into());
        (handed, lengths, right)
    }

    /// Makes the page of all: the reply.
    fn page(&mut self, handed: &Handed, lengths: &Lengths) -> Result<ffi::Page, String> {
        let [reference, rules, table] = &mut self.worlds;
        let before = reference.clone();
        let page = of_reference(handed, reference.lend(lengths));
        for (by_table, world) in [(false, rules), (true, table)] {
            let found = of_library(handed, world.lend(lengths), by_table);
            if page != found {
                return Err(format!("reply:\n  {page:?}\n  {found:?}"));
            }
            if let Some(difference) = reference.difference(world) {
                return Err(difference);
            }
        }
        match page.refusal != 0 && before != *reference {
            true => Err("a refused page changed what was lent".to_string()),
            false => Ok(page),
        }
    }

    fn call(&mut self, case: u64) {
        let (handed, lengths, right) = self.handed();
        let page = self.page(&handed, &lengths).unwrap_or_else(|difference| {
            panic!(
                "SISA_SEED={}, page of case {case}, {handed:?}, lent {lengths:?}\nfirst \
                 difference (reference, library): {difference}",
                seed()
            )
        });
        assert_eq!(page.refusal, expected(&handed, right));
        let place = [0, 1, 5, 6, 17].iter().position(|&x| x == page.refusal);
        self.counts.refusals[place.expect("one of these")] += 1;
        if handed.budget > 4_000_000_000 && matches!(page.refusal, 0 | 6) {
            self.counts.great[usize::from(page.refusal == 6)] += 1;
        }
        if page.refusal == 0 {
            self.check(&handed, &page);
            self.keep(&page);
        }
    }

    /// "Steps total at most B, less exactly when no trim ends with stop 0. Each trim
    /// does at least its share unless it stopped for another reason".
    fn check(&mut self, handed: &Handed, page: &ffi::Page) {
        let answers = &page.answers[..self.trims];
        let total: u64 = answers.iter().map(|x| u64::from(x.steps)).sum();
        let none = answers.iter().all(|x| x.stop != 0);
        assert!(total <= handed.budget.into());
        assert_eq!(total < handed.budget.into(), none);
        let share = handed.budget / self.trims as u32;
        for answer in answers {
            assert!(answer.stop != 0 || answer.steps >= share);
            self.counts.more += u64::from(answer.steps > share);
            self.counts.stops[usize::from(answer.stop)] += 1;
        }
        self.counts.less += u64::from(none);
    }

    /// The states returned; after a stop at a word PC often moves on.
    fn keep(&mut self, page: &ffi::Page) {
        for k in 0..self.trims {
            self.states[k] = plain_state(page.trims.states[k]);
            let moves = self.random.below(2) == 0;
            if matches!(page.answers[k].stop, 1 | 3 | 4) && moves {
                self.states[k].pc = self.states[k].pc.wrapping_add(2);
            }
            self.states[k].n %= 1 << 31;
        }
    }
}

#[test]
fn pages_of_several_trims() {
    let mut random = random_of(seed(), 23 << 32);
    let world = World::joined(&mut random, TRIMS);
    let mut pages = Pages {
        random,
        worlds: [world.clone(), world.clone(), world],
        states: [State::reset(); TRIMS],
        trims: 1,
        counts: Counts::default(),
    };
    for case in 0..CASES {
        pages.fit();
        (0..8).for_each(|_| pages.call(case));
    }
    let counts = pages.counts;
    println!("seed {}: pages: {counts:?}", seed());
    assert!(counts.refusals.iter().all(|&x| x > 50), "{counts:?}");
    assert!(counts.stops.iter().all(|&x| x > 50), "{counts:?}");
    assert!(counts.more > 300 && counts.less > 100 && counts.great.iter().all(|&x| x > 10));
}
