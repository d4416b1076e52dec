//! "Pages"

use super::files::{of_words, program_word};
use super::host::Host;
use super::runs::digest;
use super::{number, Call, Digest};
use crate::load::load;
use crate::machine::{Lent, Memories, State, MEMORY, PORTS};
use crate::page::{page_by_rules, page_by_table, Page, TRIMS};
use crate::usage::Usage;
use std::ops::Range;

/// "c = 97 to 102"
const CASES: Range<u64> = 97..103;

/// "ten pages, j = 0 to 9"
const PAGES: u64 = 10;

/// T, how many trims the pages of case c have.
pub fn trims(c: u64) -> usize {
    1 + (c % 3) as usize
}

/// The case that trim i of case c has its numbers of.
fn case_of_trim(c: u64, i: usize) -> u64 {
    200 + 3 * (c - CASES.start) + i as u64
}

/// Trim i's file.
pub fn trim_file(c: u64, i: usize) -> Vec<u8> {
    let f = case_of_trim(c, i);
    of_words(f, 32, |j| {
        let x = number(f, 1_000 + j);
        match (j, number(f, 4_000 + j) % 8) {
            // BZ and BNZ of R0 to address 0
            (30, _) => 32_993,
            (31, _) => 33_248,
            (_, 0) => program_word(f, j),
            // "an OUT"
            (_, 1) => (41_216 + 512 * (x % 8) + x / 8 % 256) as u16,
            // "an ADDI"
            _ => (8_192 + x % 4_096) as u16,
        }
    })
}

/// What a case lends, joined, and the states kept.
struct Joined {
    states: [State; TRIMS],
    programs: Vec<u8>,
    memories: Vec<u8>,
    inputs: Vec<u16>,
    outputs: Vec<u16>,
}

impl Joined {
    /// The trims of case c, each loaded into its part.
    fn of_case(c: u64) -> Joined {
        let count = trims(c);
        let mut joined = Joined {
            states: [State::reset(); TRIMS],
            programs: vec![0; count * MEMORY],
            memories: vec![0; count * MEMORY],
            inputs: vec![0; count * PORTS],
            outputs: vec![0; count * PORTS],
        };
        for i in 0..count {
            joined.load(c, i);
        }
        joined
    }

    fn load(&mut self, c: u64, i: usize) {
        let (bytes, words) = (MEMORY * i..MEMORY * (i + 1), PORTS * i..PORTS * (i + 1));
        let board = match i {
            1 => Memories::Single,
            _ => Memories::Two,
        };
        let loaded = load(
            &trim_file(c, i),
            board,
            None,
            &mut self.programs[bytes.clone()],
            &mut self.memories[bytes],
            &mut self.inputs[words.clone()],
            &mut self.outputs[words],
        );
        let f = case_of_trim(c, i);
        self.states[i] = State {
            enabled: (number(f, 70) % 2) as u8,
            pending: (number(f, 71) % 256) as u8,
            journaled: i as u64 + 1,
            ..loaded.unwrap_or(State::reset())
        };
    }

    /// "DIGEST takes in"
    fn digest(&self, states: &[State], log: &[u64]) -> u64 {
        let mut digest = Digest::default();
        for state in states {
            digest.take_all(&state.r);
            digest.take(state.pc.into());
            digest.take(state.n.into());
        }
        digest.take_all(&self.programs);
        digest.take_all(&self.memories);
        digest.take_all(&self.inputs);
        digest.take_all(&self.outputs);
        digest.take_halves(log);
        digest.value()
    }

    /// "Where the page was accepted the host keeps the states that it returned".
    fn keep(&mut self, page: &Page) {
        for (k, answer) in page.answers.iter().enumerate() {
            self.states[k] = page.states[k];
            if answer.stop == 1 || answer.stop == 3 {
                self.states[k].pc = page.states[k].pc.wrapping_add(2);
            }
        }
    }
}

impl Host {
    /// The cases after those of knobs.
    pub fn pages(&mut self) -> Vec<String> {
        CASES.flat_map(|c| self.case_of_pages(c)).collect()
    }

    fn case_of_pages(&mut self, c: u64) -> Vec<String> {
        let mut joined = Joined::of_case(c);
        let call = |j: u64| Call {
            c,
            i: j,
            q: 7_000 + 16 * j,
        };
        (0..PAGES)
            .flat_map(|j| self.page(call(j), &mut joined))
            .collect()
    }

    /// "page ENGINE c j REFUSAL DIGEST", and the lines of its trims.
    fn page(&mut self, call: Call, joined: &mut Joined) -> Vec<String> {
        let (engine, page_by): (_, PageBy) = match call.number(0) % 2 {
            0 => ("rules", page_by_rules),
            _ => ("table", page_by_table),
        };
        let page = self.made(call, page_by, joined);
        let trims = &page.states[..trims(call.c)];
        let digest = joined.digest(trims, &self.log);
        joined.keep(&page);
        let mut lines = vec![format!("page {engine} {call} {} {digest}", page.refusal)];
        lines.extend((0..trims.len()).map(|k| trim_line(call, &page, k)));
        lines
    }

    /// The page as it is handed and lent.
    fn made(&mut self, call: Call, page_by: PageBy, joined: &mut Joined) -> Page {
        let mut states = joined.states;
        let trims = trims(call.c);
        let mut count = trims as u8;
        let (mut memory, mut outputs) = (joined.memories.len(), joined.outputs.len());
        let one = call.number(5) as usize % trims;
        let budget = match call.number(1) % 4 {
            0 => call.number(2) % 6,
            1 => call.number(2) % 60,
            _ => call.number(2) % 1_000,
        };
        match call.number(3) % 16 {
            0 => states[one].pc = states[one].pc.wrapping_add(1),
            1 => states[one].n = 4_294_967_290,
            2 => memory -= 1,
            3 => outputs -= 1,
            4 => count = 0,
            5 => count = 9,
            6 => count = 8,
            7 => {
                states[0].n = 4_294_967_290;
                states[trims - 1].pc = states[trims - 1].pc.wrapping_add(1);
            }
            8 => states[one].n = (4_294_967_296 - budget.max(1)) as u32,
            _ => {}
        }
        let places = (call.number(4) % 64) as usize;
        let lent = Lent {
            p: &joined.programs,
            d: &mut joined.memories[..memory],
            i: &mut joined.inputs,
            o: &mut joined.outputs[..outputs],
        };
        page_by(states, count, lent, budget as u32, &mut self.log[..places])
    }
}

/// A page by either engine.
type PageBy = fn([State; TRIMS], u8, Lent, u32, &mut [u64]) -> Page;

/// "trim c j i STOP STEPS ENTRIES TICKS USAGE JOURNALED BOARD ENABLED PENDING LINE
/// RETURN"
fn trim_line(call: Call, page: &Page, k: usize) -> String {
    let numbers = match page.answers.get(k) {
        Some(x) => format!(
            "{} {} {} {} {}",
            x.stop,
            x.steps,
            x.entries,
            x.ticks,
            digest(x.usage)
        ),
        None => format!("0 0 0 0 {}", digest(Usage::default())),
    };
    let s = page.states[k];
    let lines = format!(
        "{} {} {} {}",
        s.enabled, s.pending, s.line, s.return_address
    );
    format!(
        "trim {call} {k} {numbers} {} {} {lines}",
        s.journaled, s.board
    )
}
