//! "`conformance`: the calls of case c", and the printed runs.

use super::backs::GOING_BACK;
use super::files::{file, undamaged};
use super::host::Host;
use super::locks::{range_of, start_near};
use super::runs::{first_sheet, By};
use super::{number, Call, Digest};
use crate::instruction::{read, write_numbered};
use crate::machine::{MEMORY, PORTS};
use crate::masks::masks;
use crate::report;
use crate::set::set;
use crate::window::{window, Memory};

/// "Cases are 0 to 63."
const CASES: u64 = 64;

/// "sixteen calls follow"
const CALLS: u64 = 16;

/// All lines, without line ends.
pub fn lines() -> Vec<String> {
    let mut host = Host::at_the_start();
    let mut lines = Vec::new();
    for c in 0..CASES {
        lines.extend(host.case(c));
    }
    lines.extend(printed());
    lines.extend(host.keys());
    lines.extend(host.boards());
    lines.extend(host.knobs());
    lines.extend(host.pages());
    lines.extend(host.locks());
    lines
}

impl Host {
    /// Case c: its load and, where that is accepted, its calls, its saves and,
    /// where the load after them is too, its calls with a journal.
    fn case(&mut self, c: u64) -> Vec<String> {
        let memory = match number(c, 4) % 8 {
            0 => 65_535,
            _ => MEMORY,
        };
        let refusal = self.load(&file(c), memory);
        let mut lines = vec![format!("load {c} {refusal} {}", self.digest(self.kept))];
        if refusal == 0 {
            lines.extend(self.after_load(c));
        }
        lines
    }

    /// The calls, saves and calls with a journal of case c.
    pub fn after_load(&mut self, c: u64) -> Vec<String> {
        self.sheet = first_sheet(c);
        let calls = (0..CALLS).flat_map(|i| self.call(Call::of_case(c, i)));
        let mut lines: Vec<String> = calls.collect();
        let (saves, again) = self.saves(c);
        lines.extend(saves);
        if again == Some(0) {
            lines.extend(self.with_journal(c, &GOING_BACK));
        }
        lines
    }

    /// The call's line, and after a run that of the feeding.
    fn call(&mut self, call: Call) -> Vec<String> {
        match call.number(0) % 8 {
            0 => {
                let length = match call.number(3) % 16 {
                    0 => 255,
                    _ => PORTS,
                };
                vec![self.set(call, 256, length)]
            }
            1 | 2 => self.run_and_feed(By::Rules, call),
            3 | 4 => self.run_and_feed(By::Table, call),
            5 => self.run_and_feed(By::HostStep, call),
            6 => vec![format!("window {call} {}", self.window(call))],
            _ => vec![format!("instruction {call} {}", instruction(call))],
        }
    }

    /// "set c i REFUSAL DIGEST" of one of the first `ports`, so many inputs lent.
    pub fn set(&mut self, call: Call, ports: u64, length: usize) -> String {
        let port = (call.number(1) % ports) as u8;
        let value = call.number(2) as u16;
        let refusal = set(&mut self.inputs[..length], port, value)
            .err()
            .unwrap_or(0);
        format!("set {call} {refusal} {}", self.digest(self.kept))
    }

    /// "START COUNT DIGEST"
    fn window(&self, call: Call) -> String {
        let chosen = match call.number(1) % 2 {
            0 => Memory::Program,
            _ => Memory::Data,
        };
        let (start, most) = match range_of(call.c) {
            None => (call.number(2) as usize, 4_096),
            Some(range) => (start_near(call, range), 8),
        };
        let count = match call.number(4) % 8 {
            0 => MEMORY - start,
            1 => MEMORY - start + 1,
            2 => 0,
            _ => call.number(3) as usize % most,
        };
        let (program, memory) = (&self.program, &self.memory);
        let part = window(&self.kept, chosen, program, memory, start, count);
        // "the empty part has 0 and 0"
        let start = if part.is_empty() { 0 } else { start };
        let mut digest = Digest::default();
        digest.take_all(part);
        format!("{start} {} {}", part.len(), digest.value())
    }
}

/// "ASSIGNED KIND A B D N READS WRITES REFUSAL WORD"
fn instruction(call: Call) -> String {
    let word = call.number(1) as u16;
    let found = read(word);
    let masks = masks(word);
    let (assigned, mut kind, mut a, mut b, mut d, mut n) = match found {
        Some(x) => (1, x.kind.number(), x.a, x.b, x.d, x.n),
        None => (0, 0, 0, 0, 0, 0),
    };
    // "N modulo 65,536"
    let shown = format!("{assigned} {kind} {a} {b} {d} {}", n.rem_euclid(65_536));
    match (found, call.number(2) % 8) {
        (None, _) => kind = (call.number(3) % 40) as u8,
        (_, 0) => a += 8,
        (_, 1) => b += 1,
        (_, 2) => d += 1,
        (_, 3) => n += 64,
        _ => {}
    }
    let written = write_numbered(kind, a, b, d, n);
    format!(
        "{shown} {} {} {} {}",
        masks.reads,
        masks.writes,
        written.err().unwrap_or(0),
        written.unwrap_or(0)
    )
}

/// "Printed runs"
fn printed() -> Vec<String> {
    let mut files: Vec<Vec<u8>> = (0..CASES).map(file).collect();
    // "three more files"
    files.push(Vec::new());
    for length in [65_536, 65_537] {
        let mut file = undamaged(4);
        file.resize(length, 0);
        files.push(file);
    }
    files.iter().flat_map(|file| report::lines(file)).collect()
}
