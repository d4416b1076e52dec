//! The host: what it lends, the state and the sheet it keeps, and its loads.

use super::knobs::is_of_knobs;
use super::{Call, Digest};
use crate::load::{load, Range};
use crate::machine::{Lent, Memories, State, MEMORY, PORTS};
use crate::run::Reply;
use crate::sheet::Sheet;

/// What a run of a call is handed and lent.
pub struct Handed<'a> {
    pub state: State,
    pub lent: Lent<'a>,
    pub budget: u32,
    pub log: &'a mut [u64],
}

pub struct Host {
    /// The board and the range that its loads name.
    pub board: Memories,
    pub locked: Option<Range>,
    pub kept: State,
    pub sheet: Sheet,
    pub program: Vec<u8>,
    pub memory: Vec<u8>,
    pub inputs: Vec<u16>,
    pub outputs: Vec<u16>,
    pub log: Vec<u64>,
}

impl Host {
    /// What is lent at the start, "before any case".
    pub fn at_the_start() -> Host {
        Host {
            board: Memories::Two,
            locked: None,
            kept: State::reset(),
            sheet: Sheet::empty(),
            program: (0..MEMORY).map(|at| (at % 251) as u8).collect(),
            memory: vec![0; MEMORY],
            inputs: (0..PORTS).map(|at| 7 * at as u16).collect(),
            outputs: vec![0; PORTS],
            log: (0..64).map(|at| 1_000 + at).collect(),
        }
    }

    /// "The digest of what is left", with this state.
    pub fn digest(&self, state: State) -> u64 {
        let mut digest = Digest::default();
        digest.take_all(&state.r);
        digest.take(state.pc.into());
        digest.take(state.n.into());
        digest.take_all(&self.program);
        digest.take_all(&self.memory);
        digest.take_all(&self.inputs);
        digest.take_all(&self.outputs);
        digest.take_halves(&self.log);
        digest.value()
    }

    /// Loads the file, the memory lent being the first `memory` bytes: the
    /// refusal. The state kept is "the one that the load returned".
    pub fn load(&mut self, file: &[u8], memory: usize) -> u8 {
        let loaded = load(
            file,
            self.board,
            self.locked,
            &mut self.program,
            &mut self.memory[..memory],
            &mut self.inputs,
            &mut self.outputs,
        );
        // "all zero, where it was refused"
        self.kept = loaded.unwrap_or(State::reset());
        loaded.err().unwrap_or(0)
    }

    /// For the run of a call. `n` is what is handed where number(c, q + 3) mod 16
    /// is 1, "the budget of a run is number(c, q + 1) mod" `budget` and "the log
    /// lent is the first number(c, q + 2) mod" `log` places.
    pub fn hand(&mut self, call: Call, n: u32, budget: u64, log: u64) -> Handed<'_> {
        let mut state = self.kept;
        let (mut memory, mut outputs) = (MEMORY, PORTS);
        match call.number(3) % 16 {
            0 => state.pc = state.pc.wrapping_add(1),
            1 => state.n = n,
            2 => memory = 65_535,
            3 => outputs = 255,
            6 if is_of_knobs(call.c) => state.return_address = state.return_address.wrapping_add(1),
            _ => {}
        }
        Handed {
            state,
            lent: Lent {
                p: &self.program,
                d: &mut self.memory[..memory],
                i: &mut self.inputs,
                o: &mut self.outputs[..outputs],
            },
            budget: (call.number(1) % budget) as u32,
            log: &mut self.log[..(call.number(2) % log) as usize],
        }
    }

    /// "Where the call was accepted the host keeps that state, after a stop 1, 3 or
    /// 4 with PC moved on by 2 (modulo 65,536); where it was refused it keeps
    /// the one it had."
    pub fn keep(&mut self, reply: Reply) {
        if let Reply::Done { state, stop, .. } = reply {
            self.kept = state;
            if matches!(stop, 1 | 3 | 4) {
                self.kept.pc = state.pc.wrapping_add(2);
                // "and the count of journal entries made 0"; without a journal
                // it is 0
                self.kept.journaled = 0;
            }
        }
    }
}
