//! A page of several trims under one budget, as document 02's request L13 says.
//!
//! Sentences in quotation marks are that request's.

use crate::machine::{Lent, State, MEMORY, PORTS};
use crate::run::{admit_state, run_by_rules, run_by_table, Reply, RunBy};
use crate::usage::Usage;

/// "A panel page runs 1 to 8 trims"
pub const TRIMS: usize = 8;

/// What a page replies for a trim, "as one run without a journal".
#[derive(Clone, Copy, Debug, PartialEq, Eq)]
pub struct Answer {
    pub stop: u8,
    pub steps: u32,
    pub entries: u32,
    pub ticks: u64,
    pub usage: Usage,
}

/// What a page replies: all states, those past the number of trims as handed, the
/// refusal's number or 0, and the answer of each trim, none where it is refused.
#[derive(Clone, Debug, PartialEq, Eq)]
pub struct Page {
    pub states: [State; TRIMS],
    pub refusal: u8,
    pub answers: Vec<Answer>,
}

/// What a page is lent: "Memories and ports are lent joined in order [...], and the
/// log in equal parts, rounded down."
struct Joined<'a> {
    lent: Lent<'a>,
    log: &'a mut [u64],
    /// The places of each trim's part of the log.
    places: usize,
}

impl Joined<'_> {
    /// Trim k's memories and ports, and its part of the log from this place on.
    fn of_trim(&mut self, k: usize, entries: usize) -> (Lent<'_>, &mut [u64]) {
        let bytes = MEMORY * k..MEMORY * (k + 1);
        let words = PORTS * k..PORTS * (k + 1);
        let lent = Lent {
            p: &self.lent.p[bytes.clone()],
            d: &mut self.lent.d[bytes],
            i: &mut self.lent.i[words.clone()],
            o: &mut self.lent.o[words],
        };
        let first = self.places * k;
        (lent, &mut self.log[first + entries..first + self.places])
    }
}

/// A page by the rules.
pub fn page_by_rules(
    states: [State; TRIMS],
    count: u8,
    lent: Lent,
    budget: u32,
    log: &mut [u64],
) -> Page {
    page(run_by_rules, states, count, lent, budget, log)
}

/// A page by the paper's table.
pub fn page_by_table(
    states: [State; TRIMS],
    count: u8,
    lent: Lent,
    budget: u32,
    log: &mut [u64],
) -> Page {
    page(run_by_table, states, count, lent, budget, log)
}

fn page(
    run: RunBy,
    mut states: [State; TRIMS],
    count: u8,
    lent: Lent,
    budget: u32,
    log: &mut [u64],
) -> Page {
    if let Err(refusal) = admit(&states, count, &lent, budget) {
        return Page {
            states,
            refusal,
            answers: Vec::new(),
        };
    }
    let trims = &mut states[..usize::from(count)];
    let places = log.len() / trims.len();
    let joined = Joined { lent, log, places };
    let answers = admitted(run, trims, joined, budget);
    Page {
        states,
        refusal: 0,
        answers,
    }
}

/// "17, no trims or more than 8, before all other tests; another refusal for any trim,
/// 6 being tested with B, refuses the whole call, and the first trim's counts."
fn admit(states: &[State; TRIMS], count: u8, lent: &Lent, budget: u32) -> Result<(), u8> {
    let count = usize::from(count);
    if !(1..=TRIMS).contains(&count) {
        return Err(17);
    }
    // "1 testing the joined lengths"
    let bytes = [lent.p.len(), lent.d.len()] == [count * MEMORY; 2];
    let words = [lent.i.len(), lent.o.len()] == [count * PORTS; 2];
    if !bytes || !words {
        return Err(1);
    }
    let trims = &states[..count];
    trims
        .iter()
        .try_for_each(|state| admit_state(state, budget))
}

/// The page that no test turns away. "In order, each gets B divided by their number,
/// rounded down; what is unused then goes whole to the first, what it leaves to the
/// next, and so on, each log part filled further."
fn admitted(run: RunBy, trims: &mut [State], mut joined: Joined, budget: u32) -> Vec<Answer> {
    let share = budget / trims.len() as u32;
    let mut answers = Vec::new();
    for (k, state) in trims.iter_mut().enumerate() {
        answers.push(run_trim(run, state, &mut joined, k, share, 0));
    }
    let mut unused = budget - answers.iter().map(|answer| answer.steps).sum::<u32>();
    for (k, (state, first)) in trims.iter_mut().zip(&mut answers).enumerate() {
        // "A trim left nothing keeps its first stop reason."
        if unused == 0 {
            break;
        }
        let entries = first.entries as usize;
        let second = run_trim(run, state, &mut joined, k, unused, entries);
        unused -= second.steps;
        *first = first.and(second);
    }
    answers
}

/// A run of trim k, whose part of the log has so many entries.
fn run_trim(
    run: RunBy,
    state: &mut State,
    joined: &mut Joined,
    k: usize,
    budget: u32,
    entries: usize,
) -> Answer {
    let (lent, log) = joined.of_trim(k, entries);
    let returned = run(*state, lent, budget, log, None);
    *state = returned.reply.state();
    let (stop, steps, entries) = match returned.reply {
        Reply::Done {
            stop,
            steps,
            entries,
            ..
        } => (stop, steps, entries),
        // No refusal: n plus this budget is at most what was tested with B.
        Reply::Refused { .. } => (0, 0, 0),
    };
    Answer {
        stop,
        steps,
        entries,
        ticks: returned.ticks,
        usage: returned.usage,
    }
}

impl Answer {
    /// Both runs of a trim: the stop reason is the second's.
    fn and(self, second: Answer) -> Answer {
        Answer {
            stop: second.stop,
            steps: self.steps + second.steps,
            entries: self.entries + second.entries,
            ticks: self.ticks + second.ticks,
            usage: self.usage.and(second.usage),
        }
    }
}
