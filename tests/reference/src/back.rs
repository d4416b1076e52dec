//! Going back, as document 02's request L7 says.
//!
//! Sentences in quotation marks are that request's.

use crate::journal::{is_output, undo};
use crate::machine::{Lent, Places, State};
use crate::run::admit;

/// What going back replies.
#[derive(Clone, Copy, Debug, PartialEq, Eq)]
pub enum Back {
    /// The state, and "how many log entries fall away".
    Done { state: State, fallen: u64 },
    /// 01's "number, state as handed"
    Refused { state: State, number: u8 },
}

impl Back {
    /// The state handed back, refused or not.
    pub fn state(&self) -> State {
        match *self {
            Back::Done { state, .. } => state,
            Back::Refused { state, .. } => state,
        }
    }

    /// The refusal's number, 0 where going back was accepted.
    pub fn refusal(&self) -> u8 {
        match *self {
            Back::Done { .. } => 0,
            Back::Refused { number, .. } => number,
        }
    }

    /// The log entries that fall away, none where it is refused.
    pub fn fallen(&self) -> u64 {
        match *self {
            Back::Done { fallen, .. } => fallen,
            Back::Refused { .. } => 0,
        }
    }
}

/// "the steps a journal holds are the lesser of that count and n, or none if it
/// is shorter than that count"
fn steps_held(state: &State, journal: &[u64]) -> u64 {
    match journal.len() as u64 >= state.journaled {
        true => state.journaled.min(u64::from(state.n)),
        false => 0,
    }
}

/// The tests "14, journal holds fewer than k steps, after 1 and 5": the places,
/// or the number.
fn admit_back<'a>(state: State, lent: Lent<'a>, journal: &[u64], k: u64) -> Result<Places<'a>, u8> {
    let places = admit(state, lent)?;
    match k > steps_held(&state, journal) {
        true => Err(14),
        false => Ok(places),
    }
}

/// "going back k steps"
pub fn step_back(state: State, lent: Lent, journal: &[u64], k: u64) -> Back {
    match admit_back(state, lent, journal, k) {
        Ok(mut places) => admitted(state, &mut places, journal, k),
        Err(number) => Back::Refused { state, number },
    }
}

/// Going back where no test turns it away: it "takes k off that count".
fn admitted(mut state: State, places: &mut Places, journal: &[u64], k: u64) -> Back {
    let mut fallen = 0;
    for _ in 0..k {
        state.journaled -= 1;
        let entry = journal[state.journaled as usize];
        undo(entry, &mut state, places);
        fallen += u64::from(is_output(entry));
    }
    Back::Done { state, fallen }
}
