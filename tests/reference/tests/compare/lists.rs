//! Long lists of calls, every one compared.

use crate::call::{of_reference, plain_state, Answer, Bytes, Call, Text};
use crate::ffi;
use crate::make;
use crate::random::Random;
use crate::sheets::any_order;
use crate::tally::Tally;
use crate::texts;
use crate::twins::Twins;
use crate::world::{Lengths, World, JOURNAL};
use crate::{case_to_replay, random_of, seed};
use reference::machine::State;
use reference::run::Engine;

const CASES: u64 = 2_000;

/// What a case is.
#[derive(Clone, Copy, Debug, PartialEq, Eq)]
enum Sort {
    /// Loads of good and damaged files.
    Loads,
    /// A list after an accepted load; each run is handed the state that the
    /// call before it returned.
    Kept,
    /// A list whose host also alters the state between calls.
    Altered,
    /// A list as in `Kept` most of whose runs keep a journal, and that goes back.
    Journaled,
}

impl Sort {
    fn of(case: u64) -> Sort {
        match case % 10 {
            0 => Sort::Loads,
            1..=4 => Sort::Kept,
            5..=7 => Sort::Altered,
            _ => Sort::Journaled,
        }
    }

    fn calls(self) -> u64 {
        match self {
            Sort::Loads => 24,
            _ => 150,
        }
    }
}

struct List {
    sort: Sort,
    random: Random,
    twins: Twins,
    /// How many places its journal has.
    journal: usize,
    /// How many places of it, from 0 on, steps have written.
    written: u64,
    /// The state that the host keeps.
    kept: State,
    /// The last run took no step before an unassigned word, a zero divisor or a locked
    /// byte.
    stuck: bool,
    /// The file last loaded.
    loaded: Option<Bytes>,
    /// What the runs returned.
    returned: Vec<ffi::Answer>,
}

impl List {
    fn new(seed: u64, case: u64) -> List {
        let mut random = random_of(seed, case);
        let twins = Twins::new(World::random(&mut random));
        List {
            sort: Sort::of(case),
            journal: make::journal(&mut random),
            random,
            twins,
            written: 0,
            kept: State::reset(),
            stuck: false,
            loaded: None,
            returned: Vec::new(),
        }
    }

    fn play(&mut self, tally: &mut Tally) -> Result<(), String> {
        for at in 0..self.sort.calls() {
            let (call, lengths) = self.next(at);
            let answer = self.twins.call(&call, &lengths).map_err(|difference| {
                format!(
                    "call {at}: {call:?}\nlent: {lengths:?}\nfile last loaded: {:?}\n\
                     first difference (reference, library): {difference}",
                    self.loaded
                )
            })?;
            tally.count(&call, &answer);
            self.returned.extend(answer.of_run());
            self.keep(call, answer);
        }
        any_order(&mut self.random, &mut self.returned)
    }

    fn next(&mut self, at: u64) -> (Call, Lengths) {
        let random = &mut self.random;
        let mut lengths = make::lengths(random);
        lengths.journal = make::places(random, self.journal, self.kept.journaled);
        let after_load = matches!(self.sort, Sort::Kept | Sort::Journaled);
        // Without a load the memories are the case's random ones.
        if after_load && at == 0 {
            let mut named = make::named(random);
            if named.first > named.last {
                named.locked = 0;
            }
            let file = Bytes(make::file(random, named.board));
            return (Call::Load(named, file), Lengths::right(0));
        }
        let load = self.sort == Sort::Loads || (self.stuck && random.below(3) == 0);
        let call = match (load, self.sort) {
            (true, _) => self.load(),
            (_, Sort::Journaled) => self.mostly_journaled(&lengths),
            _ => self.any(&lengths),
        };
        (call, lengths)
    }

    fn engine(&mut self) -> Engine<'static> {
        make::one_of(&mut self.random, &[Engine::Rules, Engine::PAPER_TABLE])
    }

    fn any(&mut self, lengths: &Lengths) -> Call {
        let random = &mut self.random;
        match random.below(48) {
            0 => self.load(),
            1..=4 => Call::Set(make::port(random), random.value()),
            5 | 6 => self.window(lengths),
            7..=12 => Call::HostStep(self.handed(1)),
            13 => self.save(lengths),
            14 => Call::Assemble(Text(texts::any(random))),
            15..=18 => self.back(lengths),
            19..=23 => self.journaled(),
            24..=27 => Call::Raise(self.kept, make::line(random)),
            _ => self.run(lengths),
        }
    }

    fn mostly_journaled(&mut self, lengths: &Lengths) -> Call {
        let random = &mut self.random;
        match random.below(48) {
            0 => Call::HostStep(self.handed(1)),
            1 => self.run(lengths),
            2..=7 => Call::Set(make::port(random), random.value()),
            8 | 9 => Call::Raise(self.kept, make::line(random)),
            10..=25 => self.back(lengths),
            _ => self.journaled(),
        }
    }

    fn load(&mut self) -> Call {
        let random = &mut self.random;
        let named = make::named(random);
        let file = match random.below(4) {
            0 => make::file(random, 0),
            1 => make::file(random, named.board),
            _ => make::damaged_file(random, named.board),
        };
        Call::Load(named, Bytes(file))
    }

    fn window(&mut self, lengths: &Lengths) -> Call {
        let mut number = || make::window_number(&mut self.random, lengths.program, lengths.memory);
        let (start, count) = (number(), number());
        Call::Window(
            self.kept,
            make::one_of(&mut self.random, &[0, 1, 2, 255]),
            start,
            count,
        )
    }

    fn save(&mut self, lengths: &Lengths) -> Call {
        let lent = self.twins.sides.reference.lend(lengths);
        let length = make::saved_length(&self.kept, lent.program, lent.memory);
        let edges = [0, length - 1, length, length, length + 1, length + 300];
        let length = make::one_of(&mut self.random, &edges);
        let state = self.handed(0);
        Call::Save(state, make::destination(&mut self.random, length))
    }

    fn run(&mut self, lengths: &Lengths) -> Call {
        let budget = make::budget(&mut self.random);
        let state = self.handed(budget);
        let budget = match self.random.below(32) {
            0 => self.great_budget(state, lengths).unwrap_or(budget),
            _ => budget,
        };
        Call::Run(self.engine(), state, budget)
    }

    /// A run with the journal, which ends one of the greatest budget too.
    fn journaled(&mut self) -> Call {
        let budget = make::budget(&mut self.random);
        let state = self.handed(budget);
        let budget = match self.random.below(16) {
            0 => make::great_budget(&mut self.random, state.n),
            _ => budget,
        };
        Call::Journaled(self.engine(), state, budget)
    }

    fn back(&mut self, lengths: &Lengths) -> Call {
        let state = self.handed(0);
        let k = make::steps_back(&mut self.random, state, lengths.journal);
        Call::Back(state, k)
    }

    /// The state handed to a run of this budget.
    fn handed(&mut self, budget: u32) -> State {
        let random = &mut self.random;
        match (self.sort, random.below(16)) {
            (Sort::Altered, 0..=3) => make::altered(random, self.kept, budget),
            (Sort::Altered, 4) => make::recounted(random, self.kept, self.written),
            (Sort::Journaled, 0) => make::recounted(random, self.kept, self.written),
            (Sort::Journaled, 1) if random.below(4) == 0 => State {
                pc: self.kept.pc | 1,
                ..self.kept
            },
            _ => self.kept,
        }
    }

    /// A budget near the greatest, where the run ends soon without it.
    fn great_budget(&mut self, state: State, lengths: &Lengths) -> Option<u32> {
        let short = Call::Run(Engine::Rules, state, 5_000.min(u32::MAX - state.n));
        let mut world = self.twins.sides.reference.clone();
        match of_reference(&short, &mut world, lengths) {
            Answer::Run(ffi::Run { stop: 0, .. }) => None,
            _ => Some(make::great_budget(&mut self.random, state.n)),
        }
    }

    /// What the host keeps for the next call.
    fn keep(&mut self, call: Call, answer: Answer) {
        let (state, steps, stop) = match (call, answer) {
            (Call::Load(_, file), Answer::Load(load)) if load.refusal == 0 => {
                self.loaded = Some(file);
                (load.state, 0, 0)
            }
            (_, Answer::Run(run)) if run.refusal == 0 => (run.state, run.steps, run.stop),
            (_, Answer::HostStep(state, answer)) if answer.refusal == 0 => {
                (state, answer.steps, answer.stop)
            }
            (_, Answer::Back(back)) if back.refusal == 0 => (back.state, 0, 0),
            (_, Answer::Raise(raised)) => (raised.state, 0, 0),
            _ => return,
        };
        // A count past every journal came from `recounted`, and no step.
        if state.journaled > JOURNAL as u64 {
            return;
        }
        let (pc, n) = (state.pc, state.n);
        self.kept = plain_state(state);
        self.written = self.written.max(state.journaled);
        let at_word = matches!(stop, 1 | 3 | 4);
        self.stuck = at_word && steps == 0;
        if self.sort == Sort::Altered {
            if at_word && self.random.below(2) == 0 {
                self.kept.pc = pc.wrapping_add(2);
            }
            if n > 1 << 31 {
                self.kept.n = self.random.below(1 << 31) as u32;
            }
        }
    }
}

#[test]
fn lists_of_calls() {
    let seed = seed();
    let mut tally = Tally::default();
    let cases = match case_to_replay() {
        Some(case) => case..case + 1,
        None => 0..CASES,
    };
    for case in cases {
        if let Err(failure) = List::new(seed, case).play(&mut tally) {
            let sort = Sort::of(case);
            panic!("SISA_SEED={seed} SISA_CASE={case} ({sort:?}), {failure}");
        }
    }
    println!("seed {seed}: {tally}");
    if case_to_replay().is_none() {
        tally.check();
    }
}
