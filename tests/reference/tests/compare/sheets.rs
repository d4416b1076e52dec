//! Sheets, fed what runs returned and hand-made counts.

use crate::call::{header_usage, Call, Sides};
use crate::ffi;
use crate::make::one_of;
use crate::random::Random;
use crate::world::{Lengths, World};
use crate::{random_of, seed};
use reference::machine::State;
use reference::run::Engine;
use reference::sheet::{Fed, Sheet};
use reference::usage::Usage;

fn header_sheet(sheet: Sheet) -> ffi::Sheet {
    ffi::Sheet {
        kinds: sheet.kinds,
        taken: sheet.taken,
        reads: sheet.reads,
        writes: sheet.writes,
        runs: sheet.runs,
    }
}

/// Feeds both sides: the reply, or how they differ.
fn feed(sheet: Sheet, run_refusal: u8, usage: Usage) -> Result<Fed, String> {
    let fed = sheet.feed(run_refusal, usage);
    let expected = ffi::Fed {
        sheet: header_sheet(fed.sheet),
        refusal: fed.refusal,
    };
    let found = ffi::feed(header_sheet(sheet), run_refusal, header_usage(usage));
    if expected == found {
        return Ok(fed);
    }
    Err(format!(
        "{sheet:?} is fed {usage:?} of a run with refusal {run_refusal}\n\
         reference, library:\n  {expected:?}\n  {found:?}"
    ))
}

/// Feeds what a run returned.
fn feed_returned(sheet: Sheet, run: &ffi::Answer) -> Result<Fed, String> {
    let ffi::Usage {
        kinds,
        taken,
        reads,
        writes,
    } = run.usage;
    let usage = Usage {
        kinds,
        taken,
        reads,
        writes,
    };
    feed(sheet, run.refusal, usage)
}

/// Feeds these to an empty sheet of both sides in a few orders. Every order must
/// give the same sheet, whose counts of kinds and of lines taken sum to the steps.
pub fn any_order(random: &mut Random, returned: &mut [ffi::Answer]) -> Result<(), String> {
    let steps: u64 = returned.iter().map(|run| u64::from(run.steps)).sum();
    let accepted = returned.iter().filter(|run| run.refusal == 0).count();
    let mut first = None;
    for _ in 0..4 {
        let mut sheet = Sheet::empty();
        for run in &*returned {
            let fed = feed_returned(sheet, run)?;
            if fed.refusal != 0 {
                return Err(format!("a feeding was refused with {}", fed.refusal));
            }
            sheet = fed.sheet;
        }
        let sum = sheet.kinds.iter().sum::<u64>() + sheet.taken;
        let counted = (sum, usize::from(sheet.runs));
        if counted != (steps, accepted) {
            return Err(format!("{steps} steps of {accepted} runs are {sheet:?}"));
        }
        let first = *first.get_or_insert(sheet);
        if first != sheet {
            return Err(format!(
                "by the order of feeding:\n  {first:?}\n  {sheet:?}"
            ));
        }
        random.shuffle(returned);
    }
    Ok(())
}

/// What runs of a few steps returned, one in four refused.
fn short_runs(random: &mut Random) -> Vec<ffi::Answer> {
    let mut sides = Sides::new(World::random(random));
    let mut run = |at: u16| {
        let state = State {
            r: [0; 8].map(|_| random.value()),
            pc: random.word() & 0xFFFE | u16::from(at.is_multiple_of(4)),
            board: (at % 2) as u8,
            enabled: (at % 5) as u8,
            pending: random.word() as u8,
            ..State::reset()
        };
        let budget = random.below(40) as u32;
        let call = match at % 3 {
            0 => Call::Run(Engine::Rules, state, budget),
            1 => Call::Run(Engine::PAPER_TABLE, state, budget),
            _ => Call::HostStep(state),
        };
        let answer = sides.call(&call, &Lengths::right(9));
        answer.unwrap_or_else(|difference| panic!("{call:?}\n{difference}"))
    };
    (0..64).filter_map(|at| run(at).of_run()).collect()
}

#[test]
fn sheets_full_at_65_535_accepted_runs() {
    let seed = seed();
    let returned = short_runs(&mut random_of(seed, 7 << 32));
    let fed = |sheet, run| {
        let fed = feed_returned(sheet, run);
        fed.unwrap_or_else(|difference| panic!("SISA_SEED={seed}, {difference}"))
    };
    let (mut sheet, mut steps) = (Sheet::empty(), 0);
    for run in returned.iter().cycle() {
        if sheet.runs == 65_535 {
            break;
        }
        let reply = fed(sheet, run);
        assert_eq!(reply.refusal, 0);
        steps += u64::from(run.steps);
        sheet = reply.sheet;
    }
    assert_eq!(sheet.kinds.iter().sum::<u64>() + sheet.taken, steps);
    assert!(sheet.taken > 1_000, "{}", sheet.taken);
    let mut with_13 = 0;
    for run in &returned {
        let refusal = if run.refusal == 0 { 13 } else { 0 };
        assert_eq!(fed(sheet, run), Fed { sheet, refusal });
        with_13 += usize::from(refusal == 13);
    }
    println!("seed {seed}: 65535 runs of {steps} steps fed, then {with_13} refused with 13");
    assert!((1..returned.len()).contains(&with_13));
}

/// A number of a sheet, and one to be added to it.
fn two_numbers(random: &mut Random) -> (u64, u64) {
    let mut edge = || {
        let edges = [
            0,
            1,
            u32::MAX.into(),
            1 << 32,
            1 << 63,
            u64::MAX - 1,
            u64::MAX,
        ];
        match random.below(3) {
            0 => random.next(),
            _ => one_of(random, &edges),
        }
    };
    let (x, y) = (edge(), edge());
    // Their sum is 2^64 - 1, or just 2^64.
    (x, one_of(random, &[y, y, !x, x.wrapping_neg()]))
}

/// A sheet and counts, any numbers.
fn hand_made(random: &mut Random) -> (Sheet, Usage) {
    let mut sheet = Sheet::empty();
    let mut usage = Usage::default();
    let all = sheet.kinds.iter_mut().zip(&mut usage.kinds);
    let all = all.chain([(&mut sheet.taken, &mut usage.taken)]);
    let all = all.chain(sheet.reads.iter_mut().zip(&mut usage.reads));
    let all = all.chain(sheet.writes.iter_mut().zip(&mut usage.writes));
    for (count, added) in all {
        (*count, *added) = two_numbers(random);
    }
    let any = random.word();
    sheet.runs = one_of(random, &[0, 1, 65_533, 65_534, 65_535, 65_535, any, any]);
    (sheet, usage)
}

#[test]
fn hand_made_sheets_and_counts() {
    let seed = seed();
    let mut random = random_of(seed, 8 << 32);
    let (mut accepted, mut refused, mut with_13, mut wraps) = (0, 0, 0, 0);
    for _ in 0..200_000 {
        let (sheet, usage) = hand_made(&mut random);
        let any = random.word() as u8;
        let run_refusal = one_of(&mut random, &[0, 0, 0, 0, 1, 5, 6, 13, 128, 255, any]);
        let fed = feed(sheet, run_refusal, usage);
        let fed = fed.unwrap_or_else(|difference| panic!("SISA_SEED={seed}, {difference}"));
        match (run_refusal, fed.refusal) {
            (0, 0) => {
                accepted += 1;
                wraps += u64::from(fed.sheet.kinds[0] < sheet.kinds[0]);
            }
            (0, _) => with_13 += 1,
            _ => refused += 1,
        }
    }
    println!(
        "seed {seed}: 200000 sheets, {accepted} accepted ({wraps} wrap the first count), \
         {with_13} refused with 13, {refused} of refused runs"
    );
    assert!([accepted, with_13, refused, wraps]
        .iter()
        .all(|&count| count > 10_000));
}
