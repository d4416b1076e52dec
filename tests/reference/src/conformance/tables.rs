//! "`conformance_tables`: runs by any table"

use super::files::{of_words, program_word, sizes, undamaged};
use super::host::Host;
use super::knobs::{knob_word, lines_of};
use super::runs::numbers_of;
use super::{number, Call};
use crate::control::{Table, TABLE};
use crate::load::Range;
use crate::machine::{Memories, MEMORY, PORTS};
use crate::run::{run, Engine};

/// "Tables are 0 to 191"
const TABLES: u64 = 192;

/// "for t from 160 on"
const WITH_LINES: u64 = 160;

/// "for t from 176 on"
const WITH_RANGE: u64 = 176;

/// "Four runs by the table follow"
const RUNS: u64 = 4;

/// "c is 1,000 + t"
fn case_of(t: u64) -> u64 {
    1_000 + t
}

/// "The table's 32 words"
pub fn table(t: u64) -> Table {
    let c = case_of(t);
    let at = |k: u64, places: u64| (number(c, k) % places) as usize;
    let mut table = TABLE;
    match t % 4 {
        // "Where t mod 16 is 8 it is otherwise"
        _ if t % 16 == 8 => table[20] = TABLE[21],
        0 => table[at(40, 32)] = number(c, 41) as u16,
        1 => table.swap(at(40, 24), at(41, 24)),
        // "with bit 14 set"
        2 if t >= WITH_LINES => {
            let words: [u16; 32] = numbers(c, 100);
            table = std::array::from_fn(|j| match number(c, 140 + j as u64) % 4 {
                0 => words[j] | 0x4000,
                // "bit 15 cleared"
                _ => (words[j] | 0x4000) & 0x7FFF,
            });
        }
        2 if t < 128 => table = numbers(c, 100).map(|word: u16| word | 0x4000),
        // "and bits 4..2 made 4 (the input)"
        2 => table = numbers(c, 100).map(|word: u16| (word | 0x4000) & !0x1C | 0x10),
        _ => table = numbers(c, 100),
    }
    table
}

/// The file that is loaded for table t.
pub fn file(t: u64) -> Vec<u8> {
    let c = case_of(t);
    match t {
        0..128 => undamaged(c),
        // "the words of Knob interrupts"
        WITH_LINES.. => of_words(c, sizes(c).0, |j| knob_word(c, j)),
        // "the low byte of word j of the program is number(c, 4,000 + j) mod 4"
        _ => of_words(c, sizes(c).0, |j| {
            program_word(c, j) / 256 * 256 + (number(c, 4_000 + j) % 4) as u16
        }),
    }
}

/// The numbers of case c from number k on.
fn numbers<const COUNT: usize>(c: u64, k: u64) -> [u16; COUNT] {
    std::array::from_fn(|j| number(c, k + j as u64) as u16)
}

/// All lines, without line ends.
pub fn lines() -> Vec<String> {
    let mut host = Host::at_the_start();
    let mut lines = Vec::new();
    for t in 0..TABLES {
        lines.extend(host.runs(t));
    }
    lines
}

impl Host {
    /// The load of table t's file, which is not printed, and the runs by t.
    fn runs(&mut self, t: u64) -> Vec<String> {
        let c = case_of(t);
        if t >= WITH_RANGE {
            self.board = Memories::of((t % 2) as u8);
            let first = 256 + number(c, 74) % 16_384;
            self.locked = Some(Range {
                first: first as u16,
                last: (first + number(c, 75) % 32_768) as u16,
            });
        }
        self.load(&file(t), MEMORY);
        // "Then input p becomes number(c, 400 + p), for every p"
        self.inputs = numbers::<PORTS>(c, 400).to_vec();
        // "with Rk made number(c, 60 + k)"
        self.kept.r = numbers(c, 60);
        if t >= WITH_LINES {
            self.kept.enabled = (number(c, 70) % 2) as u8;
            self.kept.pending = (number(c, 71) % 256) as u8;
            self.kept.line = (number(c, 72) % 256) as u8;
            self.kept.return_address = (number(c, 73) / 2 * 2) as u16;
        }
        let table = table(t);
        (0..RUNS).flat_map(|i| self.run(&table, t, i)).collect()
    }

    /// "run control t i REFUSAL STOP STEPS ENTRIES DIGEST", and "for t from 160 on"
    /// the line of the state's lines.
    fn run(&mut self, table: &Table, t: u64, i: u64) -> Vec<String> {
        let x = self.hand(Call::of_case(case_of(t), i), 4_294_967_000, 2_000, 8);
        let reply = run(Engine::Table(table), x.state, x.lent, x.budget, x.log);
        self.keep(reply);
        let (numbers, state) = (numbers_of(reply), reply.state());
        let digest = self.digest(state);
        let mut lines = vec![format!("run control {t} {i} {numbers} {digest}")];
        if t >= WITH_LINES {
            lines.push(lines_of(format!("{t} {i}"), state));
        }
        lines
    }
}
