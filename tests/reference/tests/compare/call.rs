//! One call, made of the reference and of the library.

use crate::ffi::{self, Lent, Named};
use crate::world::{first, touched, Lengths, World, GUARD};
use reference::assemble::{assemble, Refused};
use reference::back::{step_back, Back};
use reference::load::{load, Range};
use reference::machine::{self, Memories, State};
use reference::raise::raise;
use reference::run::{host_step, run_by_rules, run_by_table, Engine, Reply, Returned};
use reference::save::save;
use reference::set::set;
use reference::usage::Usage;
use reference::window::{window, Memory};
use std::fmt;
use std::ops;

/// A trim file or a destination, printed in hexadecimal.
#[derive(Clone, PartialEq, Eq)]
pub struct Bytes(pub Vec<u8>);

impl fmt::Debug for Bytes {
    fn fmt(&self, f: &mut fmt::Formatter) -> fmt::Result {
        write!(f, "{} bytes ", self.0.len())?;
        self.0
            .iter()
            .take(600)
            .try_for_each(|byte| write!(f, "{byte:02x}"))?;
        f.write_str(if self.0.len() > 600 { ".." } else { "" })
    }
}

/// A text to assemble, printed as it stands but for bytes that don't show.
#[derive(Clone, PartialEq, Eq)]
pub struct Text(pub Vec<u8>);

impl fmt::Debug for Text {
    fn fmt(&self, f: &mut fmt::Formatter) -> fmt::Result {
        let shown = &self.0[..self.0.len().min(2_000)];
        write!(f, "{} bytes \"{}\"", self.0.len(), shown.escape_ascii())?;
        f.write_str(if self.0.len() > 2_000 { ".." } else { "" })
    }
}

#[derive(Clone, Debug)]
pub enum Call {
    Load(Named, Bytes),
    Set(u8, u16),
    /// The library knows the paper's table only.
    Run(Engine<'static>, State, u32),
    /// With a journal.
    Journaled(Engine<'static>, State, u32),
    HostStep(State),
    Back(State, u64),
    Raise(State, u8),
    Window(State, u8, usize, usize),
    /// Into these bytes, but for the guards before and after.
    Save(State, Bytes),
    Assemble(Text),
}

impl Call {
    /// The same call, a run by the other engine.
    pub fn by_the_other_engine(&self) -> Call {
        let other = |engine| match engine {
            Engine::Rules => Engine::PAPER_TABLE,
            Engine::Table(_) => Engine::Rules,
        };
        match *self {
            Call::Run(engine, state, budget) => Call::Run(other(engine), state, budget),
            Call::Journaled(engine, state, budget) => Call::Journaled(other(engine), state, budget),
            _ => self.clone(),
        }
    }

    /// The state that it is handed, if any.
    pub fn state(&self) -> Option<State> {
        match *self {
            Call::Run(_, state, _) | Call::Journaled(_, state, _) => Some(state),
            Call::HostStep(state) | Call::Back(state, _) | Call::Save(state, _) => Some(state),
            Call::Raise(state, _) | Call::Window(state, ..) => Some(state),
            _ => None,
        }
    }

    /// The places of the journal that the call may write, by its answer.
    fn places_written(&self, answer: &Answer) -> ops::Range<u64> {
        match (self, answer) {
            (Call::Journaled(_, state, _), Answer::Run(run)) => {
                state.journaled..run.state.journaled
            }
            _ => 0..0,
        }
    }
}

/// The bytes that a call only reads, but for the memories and ports.
fn read_by(call: &Call) -> &[u8] {
    match call {
        Call::Load(_, Bytes(bytes)) | Call::Assemble(Text(bytes)) => bytes,
        _ => &[],
    }
}

/// A reply in the header's types.
#[derive(Debug, PartialEq, Eq)]
pub enum Answer {
    Load(ffi::Load),
    Set(u8),
    Run(ffi::Run),
    HostStep(ffi::State, ffi::Answer),
    Back(ffi::Back),
    Raise(ffi::Raised),
    Window(ffi::Window),
    /// And all bytes as the call left them.
    Save(ffi::Saved, Bytes),
    Assemble(ffi::Assembly),
}

impl Answer {
    pub fn refusal(&self) -> u8 {
        match self {
            Answer::Load(load) => load.refusal,
            Answer::Set(refusal) => *refusal,
            Answer::Run(run) => run.refusal,
            Answer::HostStep(_, answer) => answer.refusal,
            Answer::Back(back) => back.refusal,
            Answer::Raise(raised) => raised.refusal,
            Answer::Window(_) => 0,
            Answer::Save(saved, _) => saved.refusal,
            Answer::Assemble(assembly) => assembly.refusal,
        }
    }

    /// Of a run by either engine or a host step, all but the state.
    pub fn of_run(&self) -> Option<ffi::Answer> {
        match self {
            Answer::Run(run) => Some(run.without_state()),
            Answer::HostStep(_, answer) => Some(*answer),
            _ => None,
        }
    }
}

pub fn header_state(state: State) -> ffi::State {
    ffi::State {
        r: state.r,
        pc: state.pc,
        n: state.n,
        journaled: state.journaled,
        board: state.board,
        enabled: state.enabled,
        pending: state.pending,
        line: state.line,
        return_address: state.return_address,
        locked: state.locked,
        first_locked: state.first_locked,
        last_locked: state.last_locked,
    }
}

/// A state of the header's as the reference's.
pub fn plain_state(state: ffi::State) -> State {
    State {
        r: state.r,
        pc: state.pc,
        n: state.n,
        journaled: state.journaled,
        board: state.board,
        enabled: state.enabled,
        pending: state.pending,
        line: state.line,
        return_address: state.return_address,
        locked: state.locked,
        first_locked: state.first_locked,
        last_locked: state.last_locked,
    }
}

pub fn header_usage(usage: Usage) -> ffi::Usage {
    ffi::Usage {
        kinds: usage.kinds,
        taken: usage.taken,
        reads: usage.reads,
        writes: usage.writes,
    }
}

/// "Fields that a case does not speak of are 0."
fn header_run(returned: Returned) -> ffi::Run {
    let mut answer = ffi::Run {
        state: header_state(returned.reply.state()),
        refusal: 0,
        stop: 0,
        steps: 0,
        entries: 0,
        ticks: returned.ticks,
        usage: header_usage(returned.usage),
    };
    match returned.reply {
        Reply::Refused { number, .. } => answer.refusal = number,
        Reply::Done {
            stop,
            steps,
            entries,
            ..
        } => {
            answer.stop = stop;
            answer.steps = steps;
            answer.entries = u64::from(entries);
        }
    }
    answer
}

fn header_back(back: Back) -> ffi::Back {
    ffi::Back {
        state: header_state(back.state()),
        refusal: back.refusal(),
        entries: back.fallen(),
    }
}

/// The place of the part that the reference shows; 0 and 0 for the empty part.
pub fn header_window(
    state: &State,
    program: &[u8],
    data: &[u8],
    of_data: u8,
    start: usize,
    count: usize,
) -> ffi::Window {
    let (chosen, memory) = match of_data {
        0 => (Memory::Program, program),
        _ => (Memory::Data, data),
    };
    let part = window(state, chosen, program, data, start, count);
    match part.len() {
        0 => ffi::Window { start: 0, count: 0 },
        count => ffi::Window {
            start: part.as_ptr() as usize - memory.as_ptr() as usize,
            count,
        },
    }
}

/// The answer of a save into these bytes.
fn saved_into(bytes: &Bytes, save: impl FnOnce(&mut [u8]) -> ffi::Saved) -> Answer {
    let mut left = bytes.clone();
    let end = left.0.len() - GUARD;
    Answer::Save(save(&mut left.0[GUARD..end]), left)
}

/// L11: "a state [...] that was handed comes back as it was", also where the save
/// is accepted.
fn header_saved(state: State, saved: Result<usize, u8>) -> ffi::Saved {
    ffi::Saved {
        state: header_state(state),
        refusal: saved.err().unwrap_or(0),
        length: saved.unwrap_or(0),
    }
}

fn header_assembly(assembled: Result<u32, Refused>) -> ffi::Assembly {
    let (refusal, line, words) = match assembled {
        Ok(words) => (0, 0, words),
        Err(Refused { line, number }) => (number, line, 0),
    };
    ffi::Assembly {
        refusal,
        line,
        words,
    }
}

/// A run by the reference, with the world's journal or none.
fn run_by_reference(
    engine: Engine,
    state: State,
    budget: u32,
    lent: Lent,
    journal: Option<&mut [u64]>,
) -> Answer {
    let run = match engine {
        Engine::Rules => run_by_rules,
        Engine::Table(_) => run_by_table,
    };
    let (places, log) = split(lent);
    Answer::Run(header_run(run(state, places, budget, log, journal)))
}

/// The range that a load names: "`locked` 0 names no range, any other a range" (the
/// issue).
pub fn range(named: Named) -> Option<Range> {
    (named.locked != 0).then_some(Range {
        first: named.first,
        last: named.last,
    })
}

fn load_by_reference(named: Named, file: &[u8], lent: Lent) -> Answer {
    let (board, p, d) = (Memories::of(named.board), lent.program, lent.memory);
    let loaded = load(file, board, range(named), p, d, lent.inputs, lent.outputs);
    Answer::Load(ffi::Load {
        // All zero where the load is refused.
        state: header_state(loaded.unwrap_or(State::reset())),
        refusal: loaded.err().unwrap_or(0),
    })
}

/// The memories and ports, and the log.
fn split(lent: Lent<'_>) -> (machine::Lent<'_>, &mut [u64]) {
    let places = machine::Lent {
        p: lent.program,
        d: lent.memory,
        i: lent.inputs,
        o: lent.outputs,
    };
    (places, lent.log)
}

pub fn of_reference(call: &Call, world: &mut World, lengths: &Lengths) -> Answer {
    let (lent, journal) = world.lend_with_journal(lengths);
    match *call {
        Call::Load(named, ref file) => load_by_reference(named, &file.0, lent),
        Call::Set(port, value) => Answer::Set(set(lent.inputs, port, value).err().unwrap_or(0)),
        Call::Run(engine, state, budget) => run_by_reference(engine, state, budget, lent, None),
        Call::Journaled(engine, state, budget) => {
            run_by_reference(engine, state, budget, lent, Some(journal))
        }
        Call::HostStep(state) => {
            let mut held = state;
            let (places, log) = split(lent);
            let run = header_run(host_step(&mut held, places, log));
            Answer::HostStep(header_state(held), run.without_state())
        }
        Call::Back(state, k) => {
            let (places, _) = split(lent);
            Answer::Back(header_back(step_back(state, places, journal, k)))
        }
        Call::Raise(state, line) => {
            let raised = raise(state, line);
            Answer::Raise(ffi::Raised {
                state: header_state(raised.state),
                refusal: raised.refusal,
            })
        }
        Call::Window(ref state, of_data, start, count) => {
            let (program, memory) = (lent.program, lent.memory);
            Answer::Window(header_window(state, program, memory, of_data, start, count))
        }
        Call::Save(state, ref bytes) => {
            let (program, memory) = (lent.program, lent.memory);
            let save = |to: &mut [u8]| save(&state, program, memory, to);
            saved_into(bytes, |to| header_saved(state, save(to)))
        }
        Call::Assemble(ref text) => {
            Answer::Assemble(header_assembly(assemble(&text.0, lent.program)))
        }
    }
}

pub fn of_library(call: &Call, world: &mut World, lengths: &Lengths) -> Answer {
    let (mut lent, journal) = world.lend_with_journal(lengths);
    let lent = &mut lent;
    match *call {
        Call::Load(named, ref file) => Answer::Load(ffi::load(&file.0, named, lent)),
        Call::Set(port, value) => Answer::Set(ffi::set_input(lent.inputs, port, value)),
        Call::Run(engine, state, budget) => {
            let run = match engine {
                Engine::Rules => ffi::run_by_rules,
                Engine::Table(_) => ffi::run_by_table,
            };
            Answer::Run(run(header_state(state), budget, lent))
        }
        Call::Journaled(engine, state, budget) => {
            let run = match engine {
                Engine::Rules => ffi::run_by_rules_with_journal,
                Engine::Table(_) => ffi::run_by_table_with_journal,
            };
            Answer::Run(run(header_state(state), budget, lent, journal))
        }
        Call::HostStep(state) => {
            let mut held = header_state(state);
            let answer = ffi::host_step(&mut held, lent);
            Answer::HostStep(held, answer)
        }
        Call::Back(state, k) => Answer::Back(ffi::step_back(header_state(state), lent, journal, k)),
        Call::Raise(state, line) => Answer::Raise(ffi::raise(header_state(state), line)),
        Call::Window(state, of_data, start, count) => {
            let (state, program, memory) = (header_state(state), &*lent.program, &*lent.memory);
            Answer::Window(ffi::window(state, program, memory, of_data, start, count))
        }
        Call::Save(state, ref bytes) => saved_into(bytes, |to| {
            ffi::save(header_state(state), lent.program, lent.memory, to)
        }),
        Call::Assemble(ref text) => Answer::Assemble(ffi::assemble(&text.0, lent.program)),
    }
}

/// The first byte of a destination that differs, else both answers.
fn difference(expected: &Answer, found: &Answer) -> String {
    let byte = match (expected, found) {
        (Answer::Save(ours, Bytes(left)), Answer::Save(theirs, Bytes(other))) if ours == theirs => {
            first("destination byte", left, other)
        }
        _ => None,
    };
    byte.unwrap_or_else(|| format!("reply:\n  {expected:?}\n  {found:?}"))
}

/// The reference's side, the library's, and what was before the call.
#[derive(Clone)]
pub struct Sides {
    pub reference: World,
    library: World,
    before: World,
    /// The library's journal before the call.
    journal_before: Vec<u64>,
}

impl Sides {
    /// Both sides alike.
    pub fn new(world: World) -> Sides {
        Sides {
            reference: world.clone(),
            library: world.clone(),
            journal_before: world.journal().to_vec(),
            before: world,
        }
    }

    /// The library's side, as the calls left it.
    pub fn library(&self) -> &World {
        &self.library
    }

    /// Changes what both sides lend.
    pub fn change(&mut self, change: impl Fn(Lent)) {
        for world in [&mut self.reference, &mut self.library] {
            change(world.lend(&Lengths::right(0)));
        }
    }

    /// Makes the call of both sides: the answer, or the first difference.
    pub fn call(&mut self, call: &Call, lengths: &Lengths) -> Result<Answer, String> {
        self.before.clone_from(&self.reference);
        self.journal_before.clear();
        self.journal_before.extend(self.library.journal());
        let lent_to_library = call.clone();
        let expected = of_reference(call, &mut self.reference, lengths);
        let found = of_library(&lent_to_library, &mut self.library, lengths);
        if expected != found {
            return Err(difference(&expected, &found));
        }
        if let Some(difference) = self.reference.difference(&self.library) {
            return Err(difference);
        }
        let written = call.places_written(&expected);
        if let Some(place) = touched(&self.journal_before, self.library.journal(), written) {
            return Err(format!("the library wrote {place}"));
        }
        if expected.refusal() != 0 && self.changed(call, &expected) {
            return Err("a refused call changed what was lent".to_string());
        }
        if read_by(call) != read_by(&lent_to_library) {
            return Err("the library changed the file or the text".to_string());
        }
        Ok(expected)
    }

    /// The answer of a call that runs; panics with `at` where both sides differ.
    pub fn run(&mut self, call: &Call, lengths: &Lengths, at: impl Fn() -> String) -> ffi::Answer {
        match self.call(call, lengths) {
            Ok(answer) => answer.of_run().expect("a run"),
            Err(difference) => panic!(
                "{}, {call:?}\nfirst difference (reference, library): {difference}",
                at()
            ),
        }
    }

    /// Whether the call changed anything lent.
    fn changed(&self, call: &Call, answer: &Answer) -> bool {
        let destination = match (call, answer) {
            (Call::Save(_, before), Answer::Save(_, left)) => before != left,
            _ => false,
        };
        destination || self.before != self.reference
    }
}
