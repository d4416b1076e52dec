//! "Going back"

use super::host::Host;
use super::knobs::{is_of_knobs, lines_line};
use super::runs::numbers_of_returned;
use super::{number, Call};
use crate::back::{step_back, Back};
use crate::machine::PORTS;
use crate::run::{run_by_rules, run_by_table, RunBy};

/// Which calls a case makes with a journal.
pub struct Calls {
    /// How many.
    pub count: u64,
    /// A call is a set where number(c, q) mod 8 is below this.
    pub sets: u64,
    /// The port of a set is number(c, q + 1) mod this. Where it is 0, a raise comes in
    /// place of a set.
    pub ports: u64,
}

/// "Twelve calls follow"
pub const GOING_BACK: Calls = Calls {
    count: 12,
    sets: 1,
    ports: 256,
};

/// "the journal lent is its first 8 + number(c, 7) mod 200 places", or "where
/// number(c, q + 3) mod 16 is 4", "its first number(c, q + 4) mod 8 places".
fn places_lent(call: Call) -> usize {
    let places = match call.number(3) % 16 {
        4 => call.number(4) % 8,
        _ => 8 + number(call.c, 7) % 200,
    };
    places as usize
}

impl Host {
    /// The calls of case c with a journal.
    pub fn with_journal(&mut self, c: u64, calls: &Calls) -> Vec<String> {
        // "of 256 places, made anew, place i being i"
        let mut journal: Vec<u64> = (0..256).collect();
        let call = |j: u64| Call {
            c,
            i: j,
            q: 7_000 + 16 * j,
        };
        (0..calls.count)
            .flat_map(|j| self.call_with_journal(call(j), calls, &mut journal))
            .collect()
    }

    fn call_with_journal(&mut self, call: Call, calls: &Calls, journal: &mut [u64]) -> Vec<String> {
        match call.number(0) % 8 {
            sort if sort < calls.sets && calls.ports == 0 => self.raise(call),
            // "all inputs lent"
            sort if sort < calls.sets => vec![self.set(call, calls.ports, PORTS)],
            0..=3 => self.journaled(call, "rules", run_by_rules, journal),
            4 | 5 => self.journaled(call, "table", run_by_table, journal),
            _ => self.back(call, journal),
        }
    }

    /// "journal ENGINE c j REFUSAL STOP STEPS ENTRIES TICKS USAGE JOURNALED DIGEST"
    fn journaled(
        &mut self,
        call: Call,
        engine: &str,
        run: RunBy,
        journal: &mut [u64],
    ) -> Vec<String> {
        let journal = match call.number(3) % 16 {
            // "the run is one without a journal"
            5 => None,
            _ => Some(&mut journal[..places_lent(call)]),
        };
        let x = self.hand(call, 4_294_967_000, 60, 40);
        let returned = run(x.state, x.lent, x.budget, x.log, journal);
        self.keep(returned.reply);
        let numbers = numbers_of_returned(&returned);
        let state = returned.reply.state();
        let (journaled, digest) = (state.journaled, self.digest(state));
        let line = format!("journal {engine} {call} {numbers} {journaled} {digest}");
        let mut lines = vec![line];
        if is_of_knobs(call.c) {
            lines.push(self.feed(call, &returned));
        }
        lines.extend(lines_line(call, state));
        lines
    }

    /// "back c j REFUSAL FALLEN JOURNALED DIGEST"
    fn back(&mut self, call: Call, journal: &[u64]) -> Vec<String> {
        let k = match call.number(2) % 4 {
            0 => self.kept.journaled,
            1 => self.kept.journaled + 1,
            _ => call.number(1) % 20,
        };
        // "n handed is the lesser of the kept one and 3"
        let n = self.kept.n.min(3);
        let x = self.hand(call, n, 60, 40);
        let back = step_back(x.state, x.lent, &journal[..places_lent(call)], k);
        if let Back::Done { state, .. } = back {
            self.kept = state;
        }
        let (state, refusal, fallen) = (back.state(), back.refusal(), back.fallen());
        let (journaled, digest) = (state.journaled, self.digest(state));
        let mut lines = vec![format!(
            "back {call} {refusal} {fallen} {journaled} {digest}"
        )];
        lines.extend(lines_line(call, state));
        lines
    }
}
