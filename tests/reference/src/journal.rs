//! The journal that a run may keep, as document 02's requests L7, L8 and L12 say,
//! and its entries' coding.
//!
//! Sentences in quotation marks are L7's unless another is named before them.

use crate::instruction::{read, Instruction, Kind};
use crate::machine::{data_word, lowest_line, reads_key, store_data_word, taken, Places, State};
use crate::masks::{masks, registers};
use crate::number::modulo16;

/// "A run may keep a journal": the places that it is lent, or None.
pub type Journal<'a> = Option<&'a mut [u64]>;

/// The count is "from 0 at a load or an accepted run without a journal".
pub fn begin(journal: &Journal, state: &mut State) {
    if journal.is_none() {
        state.journaled = 0;
    }
}

/// "a full journal": there is no place of the next entry's number.
pub fn is_full(journal: &Journal, state: &State) -> bool {
    let places = journal.as_ref().map(|journal| journal.len() as u64);
    places.is_some_and(|places| places <= state.journaled)
}

/// "one 64-bit entry a step"; "the next goes to the place of that number". A
/// journal isn't full here, and without one there is no entry.
pub fn add(journal: &mut Journal, state: &mut State, entry: Option<u64>) {
    if let (Some(journal), Some(entry)) = (journal, entry) {
        journal[state.journaled as usize] = entry;
        state.journaled += 1;
    }
}

/// "what the step overwrote", and what that was.
#[derive(Clone, Copy, Debug, PartialEq, Eq)]
enum Overwritten {
    Nothing,
    Register(u8, u16),
    /// And input 0, last: the step read the key.
    RegisterAndStatus(u8, u16, u16),
    /// At an even address.
    DataWord(u16, u16),
    DataByte(u16, u8),
    Output(u8, u16),
    /// The enable flag.
    Enabled(u8),
    /// This line was taken.
    Taken {
        k: u8,
        was: Interrupt,
    },
}

/// What taking a line overwrites besides the line's bit and PC.
#[derive(Clone, Copy, Debug, PartialEq, Eq)]
struct Interrupt {
    enabled: u8,
    line: u8,
    return_address: u16,
}

impl Overwritten {
    /// By the step from here, which is possible.
    fn from(state: &State, places: &Places) -> Overwritten {
        match taken(*state).and(lowest_line(state.pending)) {
            Some(k) => Overwritten::Taken {
                k,
                was: Interrupt {
                    enabled: state.enabled,
                    line: state.line,
                    return_address: state.return_address,
                },
            },
            None => Overwritten::by(places.fetch(state), state, places),
        }
    }

    /// By a step on this word.
    fn by(w: u16, state: &State, places: &Places) -> Overwritten {
        let Some(x) = read(w) else {
            return Overwritten::Nothing;
        };
        match x.kind {
            Kind::St => {
                let even = address(x, state) / 2 * 2;
                Overwritten::DataWord(even, data_word(places.d, even))
            }
            Kind::Stb => {
                let at = address(x, state);
                Overwritten::DataByte(at, places.d[usize::from(at)])
            }
            Kind::Out => Overwritten::Output(x.n as u8, places.o[x.n as usize]),
            Kind::Ei | Kind::Di | Kind::Reti => Overwritten::Enabled(state.enabled),
            Kind::In if reads_key(x.n as u8) => {
                Overwritten::RegisterAndStatus(x.d as u8, state.r[x.d as usize], places.i[0])
            }
            _ => match registers(masks(w).writes).next() {
                Some(k) => Overwritten::Register(k as u8, state.r[k]),
                None => Overwritten::Nothing,
            },
        }
    }

    /// Puts it back. L8: "Stepping back past such a read gives input 0 what it held
    /// before the read, even if it was set since." L12: "Stepping back restores
    /// these; a raise in between stays".
    fn put_back(self, state: &mut State, places: &mut Places) {
        match self {
            Overwritten::Nothing => {}
            Overwritten::Register(k, value) => state.r[usize::from(k)] = value,
            Overwritten::RegisterAndStatus(k, value, status) => {
                state.r[usize::from(k)] = value;
                places.i[0] = status;
            }
            Overwritten::DataWord(even, value) => store_data_word(places.d, even, value),
            Overwritten::DataByte(at, value) => places.d[usize::from(at)] = value,
            Overwritten::Output(port, value) => places.o[usize::from(port)] = value,
            Overwritten::Enabled(enabled) => state.enabled = enabled,
            Overwritten::Taken { k, was } => {
                state.pending |= 2_u8.pow(k.into());
                state.enabled = was.enabled;
                state.line = was.line;
                state.return_address = was.return_address;
            }
        }
    }
}

/// A store's address before its bit 0 is cleared.
fn address(x: Instruction, state: &State) -> u16 {
    modulo16(i64::from(state.r[x.a as usize]) + i64::from(x.n))
}

/// The parts of an entry, "in a coding of yours".
struct Parts {
    pc: u16,
    overwritten: Overwritten,
}

impl Parts {
    /// From the lowest bit on: 4 bits that say what was overwritten, 16 of PC, 12
    /// for a register, port, flag or line, 16 and 16 more.
    fn coded(&self) -> u64 {
        let (what, small, first, second) = match self.overwritten {
            Overwritten::Nothing => (0, 0, 0, 0),
            Overwritten::Register(k, value) => (1, k, value, 0),
            Overwritten::DataWord(even, value) => (2, 0, value, even),
            Overwritten::DataByte(at, value) => (3, 0, u16::from(value), at),
            Overwritten::Output(port, value) => (4, port, value, 0),
            Overwritten::RegisterAndStatus(k, value, status) => (5, k, value, status),
            Overwritten::Enabled(enabled) => (6, enabled, 0, 0),
            Overwritten::Taken { k, was } => {
                let bytes = 256 * u16::from(was.enabled) + u16::from(was.line);
                (7, k, was.return_address, bytes)
            }
        };
        let rest = u64::from(small) + 4_096 * (u64::from(first) + 65_536 * u64::from(second));
        what + 16 * (u64::from(self.pc) + 65_536 * rest)
    }

    /// Of any number; one that no step leaves has overwritten nothing, or what its
    /// low bits say.
    fn of(entry: u64) -> Parts {
        let field = |low: u32, width: u32| (entry >> low) % (1 << width);
        let small = field(20, 12);
        let (first, second) = (field(32, 16) as u16, field(48, 16) as u16);
        Parts {
            pc: field(4, 16) as u16,
            overwritten: match field(0, 4) {
                1 => Overwritten::Register((small % 8) as u8, first),
                2 => Overwritten::DataWord(second / 2 * 2, first),
                3 => Overwritten::DataByte(second, (first % 256) as u8),
                4 => Overwritten::Output((small % 256) as u8, first),
                5 => Overwritten::RegisterAndStatus((small % 8) as u8, first, second),
                6 => Overwritten::Enabled((small % 256) as u8),
                7 => Overwritten::Taken {
                    k: (small % 8) as u8,
                    was: Interrupt {
                        enabled: (second / 256) as u8,
                        line: (second % 256) as u8,
                        return_address: first,
                    },
                },
                _ => Overwritten::Nothing,
            },
        }
    }
}

/// The entry of the step that is possible from here.
pub fn entry(state: &State, places: &Places) -> u64 {
    let parts = Parts {
        pc: state.pc,
        overwritten: Overwritten::from(state, places),
    };
    parts.coded()
}

/// Whether the step of this entry gave L one.
pub fn is_output(entry: u64) -> bool {
    matches!(Parts::of(entry).overwritten, Overwritten::Output(..))
}

/// Takes the state, data, outputs and input 0 back by an entry, any number.
pub fn undo(entry: u64, state: &mut State, places: &mut Places) {
    let parts = Parts::of(entry);
    parts.overwritten.put_back(state, places);
    state.pc = parts.pc;
    state.n = state.n.wrapping_sub(1);
}
