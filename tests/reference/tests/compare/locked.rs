//! Locked bytes: loads and stores that touch one, fetches, windows around a range, and
//! what a load names.

mod pairs;

use crate::call::{Answer, Bytes, Call, Sides};
use crate::ffi::Named;
use crate::make::{board, one_of, range};
use crate::random::Random;
use crate::steps::{calls, put, random_state};
use crate::world::{Lengths, World};
use crate::{random_of, seed};
use reference::machine::State;

/// A range of one byte, of two, at an end of the memory, across an even address, or
/// any.
fn ranges(random: &mut Random) -> (u16, u16) {
    let (any, even) = (random.word(), random.word() & 0xFFFE);
    let other = range(random);
    one_of(
        random,
        &[
            (any, any),
            (even, even + 1),
            (even | 1, (even | 1).saturating_add(1)),
            (0, 0),
            (0, 1),
            (1, 1),
            (0xFFFF, 0xFFFF),
            (0xFFFE, 0xFFFE),
            (0xFFFE, 0xFFFF),
            (0, 0xFFFF),
            other,
        ],
    )
}

/// An address at an end of the range, or a byte or two from it, around 0 too.
fn near(random: &mut Random, state: &State) -> u16 {
    let end = one_of(random, &[state.first_locked, state.last_locked]);
    end.wrapping_add(random.below(7) as u16).wrapping_sub(3)
}

/// Whether the byte is locked, in the other words.
fn is_locked(state: &State, address: u16) -> bool {
    state.locked != 0 && state.first_locked <= address && address <= state.last_locked
}

/// A state with such a range.
fn with_range(random: &mut Random, w: u16) -> State {
    let (first_locked, last_locked) = ranges(random);
    State {
        locked: one_of(random, &[0, 1, 1, 1, 255]),
        first_locked,
        last_locked,
        board: board(random),
        ..random_state(random, w)
    }
}

/// Whether the fetch touches a locked byte, and whether a load or store at this address
/// does.
fn touches(state: &State, w: u16, address: u16) -> [bool; 2] {
    let word = |at: u16| is_locked(state, at & 0xFFFE) || is_locked(state, at | 1);
    let access = match w >> 12 {
        3 | 4 => word(address),
        _ => is_locked(state, address),
    };
    [state.board != 0 && word(state.pc), access]
}

/// LD, ST, LDB and STB about a range by all exports: stop 4 by the sentence, on the
/// single-memory board also for the fetch, which is often about the range too.
#[test]
fn accesses_about_a_range() {
    let mut random = random_of(seed(), 24 << 32);
    let mut sides = Sides::new(World::random(&mut random));
    // By export: not stopped, by the access, by the fetch.
    let mut counts = [[0; 3]; 3];
    for case in 0..24_000_u32 {
        let w = one_of(&mut random, &[0x3000, 0x4000, 0x5000, 0x6000]) + random.below(4_096) as u16;
        let mut state = with_range(&mut random, w);
        let address = near(&mut random, &state);
        let se_n6 = ((w % 64) ^ 32).wrapping_sub(32);
        state.r[usize::from(w >> 9 & 7)] = address.wrapping_sub(se_n6);
        if random.below(2) == 0 {
            state.pc = near(&mut random, &state) & 0xFFFE;
        }
        sides.change(|lent| put(lent, &state, w));
        let [fetch, access] = touches(&state, w, address);
        let export = case as usize % 3;
        let call = &calls(state)[export];
        let at = || format!("SISA_SEED={}, access {case}, word {w:#06x}", seed());
        let answer = sides.run(call, &Lengths::right(1), at);
        let stop = if fetch || access { 4 } else { 0 };
        assert_eq!(
            (answer.stop, answer.steps),
            (stop, u32::from(stop == 0)),
            "{}",
            at()
        );
        let place = if fetch { 2 } else { usize::from(access) };
        counts[export][place] += 1;
    }
    println!(
        "seed {}: by export, stepped, access or fetch locked: {counts:?}",
        seed()
    );
    assert!(counts.iter().flatten().all(|&x| x > 500), "{counts:?}");
}

/// Any word at a fetch that is locked or just isn't: 4 comes before all but the budget
/// and a line.
#[test]
fn fetches_about_a_range() {
    let mut random = random_of(seed(), 25 << 32);
    let mut sides = Sides::new(World::random(&mut random));
    let (mut stopped, mut taken) = (0, 0);
    for case in 0..12_000_u32 {
        let w = match random.below(3) {
            0 => one_of(&mut random, &[0xF000, 0xC004, 0xA100, 0xB20C]),
            _ => random.word(),
        };
        let mut state = with_range(&mut random, w);
        state.pc = near(&mut random, &state) & 0xFFFE;
        if random.below(6) == 0 {
            (state.enabled, state.pending) = (1, 1 << random.below(8));
        }
        sides.change(|lent| put(lent, &state, w));
        let fetch = is_locked(&state, state.pc) || is_locked(&state, state.pc | 1);
        let takes = state.enabled != 0 && state.pending != 0;
        let call = &calls(state)[case as usize % 3];
        let at = || format!("SISA_SEED={}, fetch {case}, word {w:#06x}", seed());
        let answer = sides.run(call, &Lengths::right(0), at);
        if state.board != 0 && fetch && !takes {
            assert_eq!((answer.stop, answer.steps), (4, 0), "{}", at());
            stopped += 1;
        }
        assert_eq!(answer.usage.taken, u64::from(takes));
        taken += u64::from(takes);
    }
    println!(
        "seed {}: {stopped} locked fetches, {taken} lines taken",
        seed()
    );
    assert!(stopped > 1_000 && taken > 500);
}

/// Windows that end just before a range, begin just after, or touch it.
#[test]
fn windows_around_a_range() {
    let mut random = random_of(seed(), 26 << 32);
    let mut sides = Sides::new(World::random(&mut random));
    let mut counts = [0; 2];
    for case in 0..12_000_u32 {
        let state = with_range(&mut random, 0);
        let start = usize::from(near(&mut random, &state));
        let to = usize::from(near(&mut random, &state));
        let count = match random.below(3) {
            0 => random.below(5) as usize,
            1 => to.saturating_sub(start),
            _ => (to + 1).saturating_sub(start),
        };
        let of_data = one_of(&mut random, &[0, 1, 1, 255]);
        let call = Call::Window(state, of_data, start, count);
        let answer = sides.call(&call, &Lengths::right(0));
        let at = format!("SISA_SEED={}, window {case}, {call:?}", seed());
        let Answer::Window(window) = answer.unwrap_or_else(|x| panic!("{at}: {x}")) else {
            panic!("{at}")
        };
        let held = (start..start + count).any(|k| k < 65_536 && is_locked(&state, k as u16));
        let empty = count == 0 || start + count > 65_536 || of_data != 0 && held;
        let expected = if empty { (0, 0) } else { (start, count) };
        assert_eq!((window.start, window.count), expected, "{at}");
        counts[usize::from(of_data != 0 && held)] += 1;
    }
    println!(
        "seed {}: windows without and with a locked byte: {counts:?}",
        seed()
    );
    assert!(counts.iter().all(|&x| x > 1_000));
}

/// What a load names, often a range whose first is over its last.
fn named(random: &mut Random) -> Named {
    let (first, last) = match random.below(3) {
        0 => (random.word(), random.word()),
        _ => ranges(random),
    };
    Named {
        board: board(random),
        locked: one_of(random, &[0, 1, 2, 255]),
        first,
        last,
    }
}

/// The refusal of a file of W 32,768 and this C, and the state's fields of the range.
fn of_named(named: &Named, c: u32) -> (u8, (u8, u16, u16)) {
    let over = named.locked != 0 && named.first > named.last;
    match (named.board != 0 && c > 0, over) {
        (true, _) => (15, (0, 0, 0)),
        (_, true) => (18, (0, 0, 0)),
        _ if named.locked == 0 => (0, (0, 0, 0)),
        _ => (0, (1, named.first, named.last)),
    }
}

/// Loads that name any range: 18 after 15, and the state's fields.
#[test]
fn loads_that_name_a_range() {
    let mut random = random_of(seed(), 27 << 32);
    let mut sides = Sides::new(World::random(&mut random));
    // By refusal 0, 15, 18.
    let mut counts = [0; 3];
    for case in 0..1_500_u32 {
        let named = named(&mut random);
        let c = one_of(&mut random, &[0, 1, 5]);
        let header = [32_768, 16, c, 16].map(|x: u32| x.to_le_bytes());
        let mut file = header.concat();
        file.resize(16 + 65_536, case as u8);
        let answer = sides.call(&Call::Load(named, Bytes(file)), &Lengths::right(0));
        let at = format!("SISA_SEED={}, load {case}, {named:?}", seed());
        let Answer::Load(load) = answer.unwrap_or_else(|x| panic!("{at}: {x}")) else {
            panic!("{at}")
        };
        let s = load.state;
        let found = (load.refusal, (s.locked, s.first_locked, s.last_locked));
        assert_eq!(found, of_named(&named, c), "{at}");
        let place = [0, 15, 18].iter().position(|&x| x == load.refusal);
        counts[place.expect("one of these")] += 1;
    }
    println!("seed {}: loads by refusal 0, 15, 18: {counts:?}", seed());
    assert!(counts.iter().all(|&x| x > 50), "{counts:?}");
}
