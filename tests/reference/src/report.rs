//! The printed lines of the program `panelrun`.

use crate::load::load;
use crate::machine::{Lent, Memories, State, MEMORY, PORTS};
use crate::run::{run, Engine, Reply};

/// The lines for a file's bytes, without line ends.
pub fn lines(file: &[u8]) -> Vec<String> {
    or_refused(outcome(file))
}

/// The lines, or: "A refusal prints one line only, `refused`, a space and its
/// number"
pub fn or_refused(outcome: Result<Vec<String>, u8>) -> Vec<String> {
    outcome.unwrap_or_else(|number| vec![format!("refused {number}")])
}

/// "8 | the program's file exceeds 65,536 bytes"
pub fn within_65_536(file: &[u8]) -> Result<(), u8> {
    match file.len() {
        0..=65_536 => Ok(()),
        _ => Err(8),
    }
}

/// The lines as one text, each ended by a line feed.
pub fn text(file: &[u8]) -> String {
    lines(file).iter().map(|line| format!("{line}\n")).collect()
}

fn outcome(file: &[u8]) -> Result<Vec<String>, u8> {
    // "the program tests 8 before its load"
    within_65_536(file)?;
    let mut p = vec![0; MEMORY];
    let mut d = vec![0; MEMORY];
    let mut i = vec![0; PORTS];
    let mut o = vec![0; PORTS];
    let mut log = [0; 64];
    // L11: "`panelrun` names an older one", and no range
    let state = load(file, Memories::Two, None, &mut p, &mut d, &mut i, &mut o)?;
    // "runs the table engine with inputs zero, budget 1,000 and a 64-place log"
    let lent = Lent {
        p: &p,
        d: &mut d,
        i: &mut i,
        o: &mut o,
    };
    match run(Engine::PAPER_TABLE, state, lent, 1_000, &mut log) {
        Reply::Refused { number, .. } => Err(number),
        Reply::Done {
            state,
            stop,
            steps,
            entries,
        } => Ok(printed(state, stop, steps, entries, &log)),
    }
}

fn printed(state: State, stop: u8, steps: u32, entries: u32, log: &[u64]) -> Vec<String> {
    // "`run`: stop, steps, entries."
    let mut lines = vec![format!("run {stop} {steps} {entries}")];
    // "`out`, one per entry: n and port (decimal), value."
    lines.extend(
        log.iter()
            .take(entries as usize)
            .map(|&entry| out_line(entry)),
    );
    // "Then PC and R0 to R7. Value, PC and registers are four hexadecimal
    // digits, capitals."
    lines.push(format!("pc {:04X}", state.pc));
    let registers: Vec<String> = state.r.iter().map(|x| format!("{x:04X}")).collect();
    lines.push(format!("r {}", registers.join(" ")));
    lines
}

/// An entry is "n before the step times 16,777,216, plus port times 65,536,
/// plus value".
fn out_line(entry: u64) -> String {
    let n = entry / 16_777_216;
    let port = entry / 65_536 % 256;
    let value = entry % 65_536;
    format!("out {n} {port} {value:04X}")
}
