//! What was compared, counted from the reference's answers.

use crate::call::{Answer, Call};
use crate::ffi::Usage;
use reference::machine::Memories;
use reference::run::Engine;
use std::collections::BTreeMap;
use std::fmt;

#[derive(Default)]
pub struct Tally {
    calls: u64,
    steps: u64,
    ticks: u64,
    entries: u64,
    /// Runs that a full journal ended, steps gone back and entries fallen away.
    full: u64,
    gone_back: u64,
    fallen: u64,
    /// Steps on the single-memory board.
    single: u64,
    /// By export and outcome.
    outcomes: BTreeMap<(&'static str, String), u64>,
    /// The sums of all runs' counts, by export.
    counts: BTreeMap<&'static str, [u64; 51]>,
}

/// All counts: kinds, lines taken, reads, writes.
fn all(usage: &Usage) -> impl Iterator<Item = &u64> {
    let kinds = usage.kinds.iter().chain([&usage.taken]);
    kinds.chain(&usage.reads).chain(&usage.writes)
}

impl Tally {
    pub fn count(&mut self, call: &Call, answer: &Answer) {
        let export = match call {
            Call::Load(..) => "load",
            Call::Set(..) => "set",
            Call::Run(Engine::Rules, ..) => "rules",
            Call::Run(Engine::Table(_), ..) => "table",
            Call::Journaled(Engine::Rules, ..) => "rules with journal",
            Call::Journaled(Engine::Table(_), ..) => "table with journal",
            Call::HostStep(_) => "host",
            Call::Back(..) => "back",
            Call::Raise(..) => "raise",
            Call::Window(..) => "window",
            Call::Save(..) => "save",
            Call::Assemble(_) => "assemble",
        };
        let mut outcome = match answer.refusal() {
            0 => "accepted".to_string(),
            refusal => format!("refused {refusal}"),
        };
        if let Some(run) = answer.of_run().filter(|run| run.refusal == 0) {
            outcome = format!("stop {}", run.stop);
            self.steps += u64::from(run.steps);
            self.ticks += run.ticks;
            self.entries += run.entries;
            self.single += match call.state().map(|state| state.memories()) {
                Some(Memories::Single) => run.steps.into(),
                _ => 0,
            };
            let counts = self.counts.entry(export).or_insert([0; 51]);
            for (sum, count) in counts.iter_mut().zip(all(&run.usage)) {
                *sum += count;
            }
        }
        self.count_journal(call, answer);
        if let Answer::Window(window) = answer {
            outcome = if window.count == 0 { "empty" } else { "part" }.to_string();
        }
        self.calls += 1;
        *self.outcomes.entry((export, outcome)).or_default() += 1;
    }

    fn count_journal(&mut self, call: &Call, answer: &Answer) {
        match (call, answer) {
            (Call::Journaled(_, _, budget), Answer::Run(run)) if run.refusal == 0 => {
                self.full += u64::from(run.stop == 0 && run.steps < *budget);
            }
            (Call::Back(state, _), Answer::Back(back)) => {
                self.gone_back += state.journaled - back.state.journaled;
                self.fallen += back.entries;
            }
            _ => {}
        }
    }

    /// That enough was compared, every outcome of every export, and every count
    /// of those that step.
    pub fn check(&self) {
        assert!(self.calls >= 100_000, "{} calls", self.calls);
        assert!(self.steps >= 10_000_000, "{} steps", self.steps);
        let times = 3 * self.steps..4 * self.steps;
        assert!(times.contains(&self.ticks), "{} ticks", self.ticks);
        assert!(self.single >= 1_000_000, "{} on D", self.single);
        assert!(self.full >= 1_000, "{} full journals", self.full);
        assert!(self.gone_back >= 100_000, "{} back", self.gone_back);
        assert!(self.fallen >= 1_000, "{} fallen", self.fallen);
        let of_runs = [
            "stop 0",
            "stop 1",
            "stop 2",
            "stop 3",
            "stop 4",
            "refused 1",
            "refused 5",
            "refused 6",
        ];
        let of_load = [
            "accepted",
            "refused 1",
            "refused 2",
            "refused 3",
            "refused 4",
            "refused 15",
            "refused 18",
        ];
        let of_assemble = [
            "accepted",
            "refused 1",
            "refused 10",
            "refused 11",
            "refused 12",
        ];
        for (export, outcomes) in [
            ("load", &of_load[..]),
            ("set", &["accepted", "refused 1"]),
            ("rules", &of_runs),
            ("table", &of_runs),
            ("rules with journal", &of_runs),
            ("table with journal", &of_runs),
            ("host", &of_runs),
            (
                "back",
                &["accepted", "refused 1", "refused 5", "refused 14"],
            ),
            ("raise", &["accepted", "refused 16"]),
            ("window", &["part", "empty"]),
            ("save", &["accepted", "refused 1", "refused 9"]),
            ("assemble", &of_assemble),
        ] {
            for outcome in outcomes {
                let key = (export, outcome.to_string());
                assert!(self.outcomes.contains_key(&key), "no {key:?}");
            }
        }
        for export in [
            "rules",
            "table",
            "rules with journal",
            "table with journal",
            "host",
        ] {
            let counts = self.counts[export];
            assert!(
                counts.iter().all(|&count| count > 0),
                "{export}, {counts:?}"
            );
        }
    }
}

impl fmt::Display for Tally {
    fn fmt(&self, f: &mut fmt::Formatter) -> fmt::Result {
        let (calls, steps, ticks) = (self.calls, self.steps, self.ticks);
        write!(f, "{calls} calls, {steps} steps of {ticks} ticks")?;
        write!(f, ", {} on the single-memory board", self.single)?;
        write!(f, ", {} log entries", self.entries)?;
        let (full, gone_back, fallen) = (self.full, self.gone_back, self.fallen);
        write!(f, ", {full} full journals")?;
        write!(f, ", {gone_back} steps back, {fallen} entries fallen away")?;
        for ((export, outcome), count) in &self.outcomes {
            write!(f, "\n  {export}, {outcome}: {count}")?;
        }
        Ok(())
    }
}
