//! The runs of `conformance`, and the sheet that they are fed to.

use super::host::Host;
use super::{number, Call, Digest};
use crate::run::{host_step, run_by_rules, run_by_table, Reply, Returned};
use crate::sheet::Sheet;
use crate::usage::Usage;

/// What makes a run that reports its counts.
#[derive(Clone, Copy)]
pub enum By {
    Rules,
    Table,
    HostStep,
}

/// "a sheet, at first the empty one, but where"
pub fn first_sheet(c: u64) -> Sheet {
    let mut sheet = Sheet::empty();
    match number(c, 5) % 4 {
        // "is 0, with 65,530 runs"
        0 => sheet.runs = 65_530,
        // "and 1, with each count k, from 0 in the digest's order, 2^64 - 1 -
        // number(c, 600 + k)"
        1 => {
            let counts = sheet.kinds.iter_mut().chain([&mut sheet.taken]);
            let counts = counts.chain(&mut sheet.reads).chain(&mut sheet.writes);
            for (k, count) in counts.enumerate() {
                *count = u64::MAX - number(c, 600 + k as u64);
            }
        }
        _ => {}
    }
    sheet
}

/// "REFUSAL STOP STEPS ENTRIES TICKS USAGE", the last "the digest of the counts
/// that the call reported"
pub fn numbers_of_returned(returned: &Returned) -> String {
    let (ticks, counts) = (returned.ticks, digest(returned.usage));
    format!("{} {ticks} {counts}", numbers_of(returned.reply))
}

/// "The digest of counts"
pub fn digest(counts: Usage) -> u64 {
    let mut digest = Digest::default();
    digest.take_halves(&counts.kinds);
    digest.take_halves(&[counts.taken]);
    digest.take_halves(&counts.reads);
    digest.take_halves(&counts.writes);
    digest.value()
}

/// The same of a sheet.
fn digest_of_sheet(sheet: Sheet) -> u64 {
    digest(Usage {
        kinds: sheet.kinds,
        taken: sheet.taken,
        reads: sheet.reads,
        writes: sheet.writes,
    })
}

/// "REFUSAL STOP STEPS ENTRIES"; the last three "are 0 where the call is
/// refused".
pub fn numbers_of(reply: Reply) -> String {
    match reply {
        Reply::Done {
            stop,
            steps,
            entries,
            ..
        } => format!("0 {stop} {steps} {entries}"),
        Reply::Refused { number, .. } => format!("{number} 0 0 0"),
    }
}

impl Host {
    /// The line of the run, and that of the feeding.
    pub fn run_and_feed(&mut self, by: By, call: Call) -> Vec<String> {
        let engine = match by {
            By::Rules => "rules",
            By::Table => "table",
            By::HostStep => "host",
        };
        let returned = self.run_by(by, call);
        let reply = returned.reply;
        self.keep(reply);
        let numbers = numbers_of_returned(&returned);
        let left = self.digest(reply.state());
        let run = format!("run {engine} {call} {numbers} {left}");
        vec![run, self.feed(call, &returned)]
    }

    /// "whether it was accepted or refused, what the call returned is fed": "fed c i
    /// REFUSAL RUNS COUNTS"
    pub fn feed(&mut self, call: Call, returned: &Returned) -> String {
        let fed = self.sheet.feed(returned.reply.refusal(), returned.usage);
        self.sheet = fed.sheet;
        let (runs, counts) = (fed.sheet.runs, digest_of_sheet(fed.sheet));
        format!("fed {call} {} {runs} {counts}", fed.refusal)
    }

    fn run_by(&mut self, by: By, call: Call) -> Returned {
        let (n, log) = match by {
            By::Rules | By::Table => (4_294_967_000, 40),
            By::HostStep => (4_294_967_295, 2),
        };
        let mut x = self.hand(call, n, 2_000, log);
        match by {
            By::Rules => run_by_rules(x.state, x.lent, x.budget, x.log, None),
            By::Table => run_by_table(x.state, x.lent, x.budget, x.log, None),
            By::HostStep => host_step(&mut x.state, x.lent, x.log),
        }
    }
}
