//! Raising a line, as document 02's request L12 says.
//!
//! Sentences in quotation marks are that request's.

use crate::machine::State;

/// What raising replies: the state, and the refusal's number or 0.
#[derive(Clone, Copy, Debug, PartialEq, Eq)]
pub struct Raised {
    pub state: State,
    pub refusal: u8,
}

/// "Raising a line sets its bit", set or not before.
pub fn raise(state: State, line: u8) -> Raised {
    // "16, line over 7"
    if line > 7 {
        return Raised { state, refusal: 16 };
    }
    let pending = state.pending | 2_u8.pow(line.into());
    Raised {
        state: State { pending, ..state },
        refusal: 0,
    }
}
