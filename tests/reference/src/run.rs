//! A run, by the rules or by a control table, and the host step.

use crate::control::{self, control_word, Table};
use crate::journal::{self, Journal};
use crate::machine::{self, Lent, Places, State, Stepped};
use crate::ticks::ticks;
use crate::usage::Usage;

/// What decides a step: "one engine from the rules, one from the control
/// table".
#[derive(Clone, Copy, Debug, PartialEq, Eq)]
pub enum Engine<'a> {
    Rules,
    /// By these 32 words.
    Table(&'a Table),
}

impl Engine<'_> {
    pub const PAPER_TABLE: Engine<'static> = Engine::Table(&control::TABLE);

    /// Whether a step is possible on the word.
    fn assigned(self, w: u16) -> bool {
        match self {
            Engine::Rules => machine::assigned(w),
            Engine::Table(table) => control::assigned(control_word(table, w), w),
        }
    }

    /// Whether the word is OUT, or its control word's store is the port.
    fn writes_port(self, w: u16) -> bool {
        match self {
            Engine::Rules => machine::is_out(w),
            Engine::Table(table) => control::writes_port(control_word(table, w)),
        }
    }

    /// Whether the word, an assigned one, divides by zero.
    fn zero_divisor(self, w: u16, state: &State) -> bool {
        match self {
            Engine::Rules => machine::zero_divisor(w, state),
            Engine::Table(table) => control::zero_divisor(control_word(table, w), w, state),
        }
    }

    /// Whether the word, an assigned one that divides by no zero, touches a locked
    /// byte of data.
    fn touches_locked(self, w: u16, state: &State) -> bool {
        match self {
            Engine::Rules => machine::touches_locked(w, state),
            Engine::Table(table) => control::touches_locked(control_word(table, w), w, state),
        }
    }

    /// The stop before the next step, "in this order", if any. L12: taking a line
    /// "needs only budget".
    fn stop(self, state: &State, places: &Places, free_place: bool) -> Option<u8> {
        if machine::taken(*state).is_some() {
            return None;
        }
        // L14: "Stop 1 comes before it, except on a locked fetch."
        if state.locks_fetch() {
            return Some(4);
        }
        let w = places.fetch(state);
        // "word unassigned, stop 1"
        if !self.assigned(w) {
            return Some(1);
        }
        // L6: "A zero divisor is stop 3, before the step, tested after stop 1"
        if self.zero_divisor(w, state) {
            return Some(3);
        }
        // L14: "a fetch, load or store touching a locked byte is stop 4"
        if self.touches_locked(w, state) {
            return Some(4);
        }
        // "word is OUT and the log has no free place, stop 2"
        (self.writes_port(w) && !free_place).then_some(2)
    }

    /// One step; None if the word at PC is unassigned, divides by zero or touches a
    /// locked byte, or can't be fetched. Taking a line and the fetch are no matter of a
    /// table.
    pub fn step(self, state: State, places: &mut Places) -> Option<Stepped> {
        match (self, machine::taken(state)) {
            (Engine::Rules, _) => machine::step(state, places),
            (_, Some(state)) => Some(Stepped { state, entry: None }),
            _ if state.locks_fetch() => None,
            (Engine::Table(table), None) => {
                let w = places.fetch(&state);
                control::step(control_word(table, w), w, state, places)
            }
        }
    }
}

/// What a run replies.
#[derive(Clone, Copy, Debug, PartialEq, Eq)]
pub enum Reply {
    /// "It replies with the state, stop reason, steps and entries written."
    Done {
        state: State,
        stop: u8,
        steps: u32,
        entries: u32,
    },
    /// "number, state as handed"
    Refused { state: State, number: u8 },
}

impl Reply {
    /// The state handed back, refused or not.
    pub fn state(&self) -> State {
        match *self {
            Reply::Done { state, .. } => state,
            Reply::Refused { state, .. } => state,
        }
    }

    /// The refusal's number, 0 where the run was accepted.
    pub fn refusal(&self) -> u8 {
        match *self {
            Reply::Done { .. } => 0,
            Reply::Refused { number, .. } => number,
        }
    }

    /// "a refused run takes no steps"
    pub fn steps(&self) -> u32 {
        match *self {
            Reply::Done { steps, .. } => steps,
            Reply::Refused { .. } => 0,
        }
    }
}

/// What a run by the rules, a run by the paper's table and a host step return.
#[derive(Clone, Copy, Debug, PartialEq, Eq)]
pub struct Returned {
    pub reply: Reply,
    /// Document 02, L5: "A run reports its counts". They are 0 where it is
    /// refused.
    pub usage: Usage,
    /// L9: "Each run also reports its ticks as a 64-bit number." They are 0 where
    /// it is refused.
    pub ticks: u64,
}

impl Returned {
    /// A reply after which nothing is counted yet.
    fn uncounted(reply: Reply) -> Returned {
        Returned {
            reply,
            usage: Usage::default(),
            ticks: 0,
        }
    }

    /// Counts the step from here.
    fn count(&mut self, state: State, places: &Places) {
        if machine::taken(state).is_some() {
            // L12: "one step of 3 ticks", which "has a count in the usage sheet"
            self.usage.taken += 1;
            self.ticks += 3;
            return;
        }
        let w = places.fetch(&state);
        self.usage.count(w);
        self.ticks += ticks(w);
    }

    /// Counts the run's steps, as the plain machine takes them from here. L9: "the
    /// sum of these over the steps the plain machine took".
    fn count_steps(&mut self, mut state: State, places: &mut Places) {
        for _ in 0..self.reply.steps() {
            self.count(state, places);
            state = machine::step(state, places).map_or(state, |stepped| stepped.state);
        }
    }
}

/// The tests that a run and going back share: the places, or the number.
pub(crate) fn admit(state: State, lent: Lent<'_>) -> Result<Places<'_>, u8> {
    // "1 | P or D not 65,536 bytes, or I or O not 256 words"
    let places = Places::of(lent).ok_or(1)?;
    not_odd(&state)?;
    Ok(places)
}

/// "5 | PC odd"; L12: "An odd return address is refused like an odd PC."
fn not_odd(state: &State) -> Result<(), u8> {
    match (state.pc % 2, state.return_address % 2) {
        (0, 0) => Ok(()),
        _ => Err(5),
    }
}

/// The tests of a run's state, 5 and 6.
pub(crate) fn admit_state(state: &State, budget: u32) -> Result<(), u8> {
    not_odd(state)?;
    // "6 | n plus budget over 4,294,967,295"
    match u64::from(state.n) + u64::from(budget) {
        0..=4_294_967_295 => Ok(()),
        _ => Err(6),
    }
}

/// The tests of the refusal table, "run 1, 5, 6": the places, or the number.
fn admit_run(state: State, lent: Lent<'_>, budget: u32) -> Result<Places<'_>, u8> {
    let places = admit(state, lent)?;
    admit_state(&state, budget)?;
    Ok(places)
}

/// "A run gets a state, the memories and ports, a 32-bit budget and a log of
/// any length that it fills from place 0." Here by any engine, without counts
/// and without a journal.
pub fn run(engine: Engine, state: State, lent: Lent, budget: u32, log: &mut [u64]) -> Reply {
    run_keeping(engine, state, lent, budget, log, None)
}

/// The same with a journal, or none.
fn run_keeping(
    engine: Engine,
    state: State,
    lent: Lent,
    budget: u32,
    log: &mut [u64],
    journal: Journal,
) -> Reply {
    match admit_run(state, lent, budget) {
        Ok(mut places) => admitted(engine, state, &mut places, budget, log, journal),
        Err(number) => Reply::Refused { state, number },
    }
}

/// The run that no test of the refusal table turns away.
fn admitted(
    engine: Engine,
    mut state: State,
    places: &mut Places,
    budget: u32,
    log: &mut [u64],
    mut journal: Journal,
) -> Reply {
    let mut steps: u32 = 0;
    let mut entries: u32 = 0;
    journal::begin(&journal, &mut state);
    // "Before each step, in this order:"
    let stop = loop {
        // "budget used, stop 0"; L7: "a full journal counts as a used budget"
        if steps == budget || journal::is_full(&journal, &state) {
            break 0;
        }
        let free_place = (entries as usize) < log.len();
        if let Some(stop) = engine.stop(&state, places, free_place) {
            break stop;
        }
        let overwritten = journal.as_ref().map(|_| journal::entry(&state, places));
        let Some(stepped) = engine.step(state, places) else {
            break 1;
        };
        if let Some(entry) = stepped.entry {
            log[entries as usize] = entry;
            entries += 1;
        }
        state = stepped.state;
        journal::add(&mut journal, &mut state, overwritten);
        steps += 1;
    };
    Reply::Done {
        state,
        stop,
        steps,
        entries,
    }
}

/// The run, and the counts and ticks of the plain machine's steps from the same
/// start, as many as the run took.
fn counted(
    engine: Engine,
    state: State,
    lent: Lent,
    budget: u32,
    log: &mut [u64],
    journal: Journal,
) -> Returned {
    let p = lent.p;
    let (mut d, mut i, mut o) = (lent.d.to_vec(), lent.i.to_vec(), lent.o.to_vec());
    let reply = run_keeping(engine, state, lent, budget, log, journal);
    let (d, i, o) = (&mut d[..], &mut i[..], &mut o[..]);
    let mut returned = Returned::uncounted(reply);
    if let Some(mut places) = Places::of(Lent { p, d, i, o }) {
        returned.count_steps(state, &mut places);
    }
    returned
}

/// A run by either engine.
pub type RunBy = fn(State, Lent, u32, &mut [u64], Journal) -> Returned;

/// A run by the rules, with a journal or none, its counts and ticks.
pub fn run_by_rules(
    state: State,
    lent: Lent,
    budget: u32,
    log: &mut [u64],
    journal: Journal,
) -> Returned {
    counted(Engine::Rules, state, lent, budget, log, journal)
}

/// A run by the paper's table, with a journal or none, its counts and ticks.
pub fn run_by_table(
    state: State,
    lent: Lent,
    budget: u32,
    log: &mut [u64],
    journal: Journal,
) -> Returned {
    counted(Engine::PAPER_TABLE, state, lent, budget, log, journal)
}

/// "A host step is a run by the table with budget 1 over registers that the
/// host holds."
pub fn host_step(held: &mut State, lent: Lent, log: &mut [u64]) -> Returned {
    let returned = run_by_table(*held, lent, 1, log, None);
    *held = returned.reply.state();
    returned
}
