//! Random files, states, budgets and lengths, edges more often than by chance.

use crate::call::Bytes;
use crate::ffi::Named;
use crate::random::Random;
use crate::world::{Lengths, GUARD, JOURNAL, LOG};
use reference::machine::State;
use reference::save::save;

pub fn one_of<T: Copy>(random: &mut Random, choice: &[T]) -> T {
    choice[random.below(choice.len() as u64) as usize]
}

/// A port; a few often, so that a set port is read, and the key's most.
pub fn port(random: &mut Random) -> u8 {
    match random.below(3) {
        0 => random.word() as u8,
        _ => one_of(random, &[0, 0, 1, 1, 2, 255]),
    }
}

/// A word of a program, mostly assigned.
pub fn program_word(random: &mut Random) -> u16 {
    if random.below(60) == 0 {
        return random.word();
    }
    let w = random.instruction();
    match w / 4_096 {
        10 => w - w % 256 + u16::from(port(random)),
        _ => w,
    }
}

/// The words of a file: any number of them, or a short loop.
fn program(random: &mut Random) -> Vec<u16> {
    let length = match random.below(8) {
        0 => 32_768,
        1 => random.below(32_769),
        2 => random.below(4),
        _ => return short_loop(random),
    };
    (0..length).map(|_| program_word(random)).collect()
}

/// A BZ and a BNZ of one register end it; both go back to its first word.
fn short_loop(random: &mut Random) -> Vec<u16> {
    let length = 1 + random.below(126) as u16;
    let mut words: Vec<u16> = (0..length).map(|_| program_word(random)).collect();
    let a = 512 * random.below(8) as u16;
    words.push(0x8000 + a + (256 - (length + 1)));
    words.push(0x8100 + a + (256 - (length + 2)));
    words
}

fn random_bytes(random: &mut Random, count: u64) -> Vec<u8> {
    (0..count).map(|_| random.word() as u8).collect()
}

/// Puts a few words and RETI at 0x0100, where a line that is taken goes on.
fn add_handler(random: &mut Random, words: &mut Vec<u16>) {
    words.resize(0x0100 / 2, 0);
    let count = random.below(6);
    words.extend((0..count).map(|_| program_word(random)));
    words.push(0xC002);
}

/// Makes some words an ST or STB near the address that R0 holds, so near 0 while it
/// is 0.
fn add_stores(random: &mut Random, words: &mut [u16]) {
    let last = words.len().saturating_sub(2);
    for word in &mut words[..last] {
        if random.below(6) == 0 {
            let opcode = one_of(random, &[0x4000, 0x6000]);
            *word = opcode + 64 * random.below(8) as u16 + random.below(64) as u16;
        }
    }
}

/// A file that loads for the board: both parts in either order with gaps, or the
/// data part anywhere.
pub fn file(random: &mut Random, board: u8) -> Vec<u8> {
    let mut words = program(random);
    if board != 0 {
        add_stores(random, &mut words);
    }
    if words.len() < 128 && random.below(2) == 0 {
        add_handler(random, &mut words);
    }
    let bytes: Vec<u8> = words.iter().flat_map(|w| w.to_le_bytes()).collect();
    let most = match board {
        0 => 65_536,
        _ => 65_536 - bytes.len() as u64,
    };
    let count = match random.below(8) {
        0 => most,
        1 => random.below(most + 1),
        2 => 0,
        _ => random.below(300.min(most + 1)),
    };
    let data = random_bytes(random, count);
    let mut file = vec![0; 16];
    let mut offsets = [0, 0];
    let program_first = random.below(2);
    for part in [program_first, 1 - program_first] {
        let gap = one_of(random, &[0, 0, 1, 7]);
        file.extend(random_bytes(random, gap));
        offsets[part as usize] = file.len();
        file.extend(if part == 0 { &bytes } else { &data });
    }
    let gap = one_of(random, &[0, 0, 1, 7]);
    file.extend(random_bytes(random, gap));
    if random.below(8) == 0 {
        let room = file.len() - 16 - data.len();
        offsets[1] = 16 + random.below(room as u64 + 1) as usize;
    }
    let header = [words.len(), offsets[0], data.len(), offsets[1]];
    for (k, x) in header.into_iter().enumerate() {
        put(&mut file, k, x as u32);
    }
    file
}

/// A file that mostly doesn't load: cut, or a header's number changed.
pub fn damaged_file(random: &mut Random, board: u8) -> Vec<u8> {
    let mut file = file(random, board);
    for _ in 0..1 + random.below(2) {
        match random.below(4) {
            0 => file.truncate(random.below(20) as usize),
            1 => file.truncate(random.below(file.len() as u64 + 1) as usize),
            _ => damage_header(random, &mut file),
        }
    }
    file
}

fn damage_header(random: &mut Random, file: &mut [u8]) {
    if file.len() < 16 {
        return;
    }
    let k = random.below(4) as usize;
    let x = number(file, k);
    let end = file.len() as u32;
    // The part's length, and so the greatest offset.
    let part = number(file, k / 2 * 2).wrapping_mul(if k < 2 { 2 } else { 1 });
    let last = end.wrapping_sub(part);
    let edges = [
        x.wrapping_add(1),
        x.wrapping_sub(1),
        last,
        last.wrapping_add(1),
        end,
        end + 1,
        32_768,
        32_769,
        65_536,
        65_537,
        0,
        15,
        16,
        u32::MAX,
        // So great that offset plus length wraps to an offset within the file.
        part.wrapping_neg().wrapping_add(16),
        1 << 31,
        random.next() as u32,
    ];
    put(file, k, one_of(random, &edges));
}

/// Number k of the header.
fn number(file: &[u8], k: usize) -> u32 {
    let bytes = &file[4 * k..4 * k + 4];
    u32::from_le_bytes([bytes[0], bytes[1], bytes[2], bytes[3]])
}

fn put(file: &mut [u8], k: usize, x: u32) {
    file[4 * k..4 * k + 4].copy_from_slice(&x.to_le_bytes());
}

pub fn budget(random: &mut Random) -> u32 {
    let limit = one_of(random, &[1, 2, 3, 300, 300, 300, 2_000, 2_000, 5_000]);
    random.below(limit) as u32
}

/// The greatest budget that this n lets pass, one more, and the greatest of all.
pub fn great_budget(random: &mut Random, n: u32) -> u32 {
    let greatest = u32::MAX - n;
    one_of(random, &[greatest, greatest.saturating_add(1), u32::MAX])
}

/// The state with registers, PC, n, board, lines or range changed; n often so that the budget just
/// fits or just doesn't.
pub fn altered(random: &mut Random, kept: State, budget: u32) -> State {
    let mut state = kept;
    match random.below(12) {
        9 => return with_any_range(random, kept),
        7 => return with_any_lines(random, kept),
        8 => state.enabled = one_of(random, &[0, 1, 2, 255]),
        0 => state.pc = random.word() | 1,
        1 => state.pc = random.word() & 0xFFFE,
        2 => state.pc = one_of(random, &[0, 2, 0xFFFC, 0xFFFE, 0xFFFF]),
        3 => state.n = u32::MAX - random.below(3) as u32,
        4 | 5 => {
            let greatest = u32::MAX - budget;
            state.n = one_of(
                random,
                &[
                    greatest,
                    greatest.saturating_add(1),
                    greatest.saturating_sub(1),
                ],
            );
        }
        6 => state.board = board(random),
        _ => state.r = state.r.map(|_| random.value()),
    }
    state
}

/// The state with any enable flag, pending lines, line number and return address,
/// which is odd now and then.
pub fn with_any_lines(random: &mut Random, state: State) -> State {
    let any = random.word();
    State {
        enabled: one_of(random, &[0, 1, 1, 2, 255]),
        pending: random.word() as u8,
        line: random.word() as u8,
        return_address: one_of(random, &[any, any & 0xFFFE, 0, 0xFFFE]),
        ..state
    }
}

/// A line, sometimes over 7.
pub fn line(random: &mut Random) -> u8 {
    let any = random.word() as u8;
    match random.below(8) {
        0 => one_of(random, &[8, 9, 255, any]),
        _ => random.below(8) as u8,
    }
}

/// Mostly the right lengths, and a log of any length.
pub fn lengths(random: &mut Random) -> Lengths {
    let places = match random.below(5) {
        0 => random.below(2),
        1 | 2 => random.below(40),
        _ => random.below(LOG as u64 + 1),
    };
    let mut lengths = Lengths::right(places as usize);
    if random.below(16) == 0 {
        for _ in 0..1 + random.below(2) {
            match random.below(4) {
                0 => lengths.program = one_of(random, &[0, 1, 65_535, 65_537]),
                1 => lengths.memory = one_of(random, &[0, 1, 65_535, 65_537]),
                2 => lengths.inputs = one_of(random, &[0, 1, 255, 257]),
                _ => lengths.outputs = one_of(random, &[0, 1, 255, 257]),
            }
        }
    }
    lengths
}

/// How many places a list's journal has.
pub fn journal(random: &mut Random) -> usize {
    let any = random.below(JOURNAL as u64 + 1) as usize;
    one_of(
        random,
        &[0, 1, 2, 7, 40, 300, 300, 2_047, 2_048, 2_500, JOURNAL, any],
    )
}

/// The journal with so many places, and now and then with about as many as are
/// counted.
pub fn places(random: &mut Random, journal: usize, journaled: u64) -> usize {
    let counted = journaled.min(JOURNAL as u64) as usize;
    match random.below(12) {
        0 => counted.saturating_sub(1),
        1 => counted,
        2 => (counted + 1 + random.below(3) as usize).min(JOURNAL),
        _ => journal,
    }
}

/// How many steps to go back where a journal of so many places is lent: none, one,
/// all that it holds, one too many, any.
pub fn steps_back(random: &mut Random, state: State, places: usize) -> u64 {
    let held = match places as u64 >= state.journaled {
        true => state.journaled.min(state.n.into()),
        false => 0,
    };
    let any = random.below(held + 1);
    let few = random.below(held.min(40) + 1);
    match random.below(12) {
        0 => 0,
        1 => 1,
        2 => held,
        3 => held + 1,
        4 => one_of(random, &[state.journaled, u64::MAX, 1 << 32]),
        5..=7 => any,
        _ => few,
    }
}

/// The state with another count of journal entries, the first `written` places
/// being those of steps, or with n below the count.
pub fn recounted(random: &mut Random, kept: State, written: u64) -> State {
    let mut state = kept;
    match random.below(4) {
        0 => state.journaled = one_of(random, &[JOURNAL as u64 + 1, 1 << 32, u64::MAX]),
        1 => state.n = random.below(kept.journaled + 2) as u32,
        _ => state.journaled = random.below(written + 1),
    }
    state
}

/// A start or a count for a window on memories of these lengths.
pub fn window_number(random: &mut Random, program: usize, memory: usize) -> usize {
    let length = one_of(random, &[program, memory]);
    match random.below(4) {
        0 => random.below(length as u64 + 2) as usize,
        1 => one_of(
            random,
            &[0, 1, length.saturating_sub(1), length, length + 1],
        ),
        2 => random.below(40) as usize,
        _ => usize::MAX - one_of(random, &[0, 1, length, length / 2, usize::MAX / 2]),
    }
}

/// The length of the file that these memories are saved as; 16 where they
/// aren't memories.
pub fn saved_length(state: &State, program: &[u8], memory: &[u8]) -> usize {
    save(state, program, memory, &mut [0; 131_088]).unwrap_or(16)
}

/// A board and no range, or any range: mostly of a few bytes, often near address 0.
pub fn named(random: &mut Random) -> Named {
    let board = board(random);
    let (first, last) = range(random);
    Named {
        board,
        locked: one_of(random, &[0, 0, 0, 1, 255]),
        first,
        last,
    }
}

/// A range's first and last byte; now and then the first is over the last.
pub fn range(random: &mut Random) -> (u16, u16) {
    let (any, near) = (random.word(), random.below(600) as u16);
    let first = one_of(random, &[any, near, near, 0, 0xFFFF, 0xFFFE]);
    let limit = one_of(random, &[1, 1, 2, 2, 3, 16, 300, 5_000]);
    let last = first.saturating_add(random.below(limit) as u16);
    match random.below(16) {
        0 => (0, 0xFFFF),
        1 => (first, any),
        2 => (any, any.wrapping_sub(1)),
        _ => (first, last),
    }
}

/// The state with any range, or none.
pub fn with_any_range(random: &mut Random, state: State) -> State {
    let (first_locked, last_locked) = range(random);
    State {
        locked: one_of(random, &[0, 0, 1, 2, 255]),
        first_locked,
        last_locked,
        ..state
    }
}

/// The number of a board: that with two memories, or the single-memory one.
pub fn board(random: &mut Random) -> u8 {
    one_of(random, &[0, 0, 0, 1, 1, 2, 255])
}

/// A destination of this length, with its guards.
pub fn destination(random: &mut Random, length: usize) -> Bytes {
    let count = length + 2 * GUARD;
    Bytes(random_bytes(random, count as u64))
}
