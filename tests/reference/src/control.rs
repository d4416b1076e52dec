//! The step by a control table, the paper's or any other.
//!
//! "Except by f in units 0 and 1, the table engine learns only from this word
//! what to do." L6: "unit 5, which selects by f" too, and L12: "bit 15 leaves the
//! choice to f". A value that a field doesn't list "stands for the number 0, [...]
//! and what a step reads it reads before it stores" (docs/CONFORMANCE.md).

use crate::machine::{
    branch_target, comparison, data_word, divides_by_zero, e, extension, f, interrupt, log_entry,
    opcode, operation, store_data_word, take_input, Places, State, Stepped, Touched,
};
use crate::number::{bit_0_cleared, bits, modulo16, sign_extend, unsigned};

/// "32 words, at opcode times 2 plus e."
pub type Table = [u16; 32];

/// The paper's table.
pub const TABLE: Table = [
    0x4001, 0x4001, // 0
    0x4021, 0x4021, // 1
    0x4142, 0x4142, // 2
    0x4146, 0x4146, // 3
    0x4540, 0x4540, // 4
    0x414A, 0x414A, // 5
    0x4940, 0x4940, // 6
    0x700E, 0x700E, // 7
    0x5000, 0x6000, // 8
    0x4263, 0x4283, // 9
    0x4013, 0x4C00, // 10
    0x40A1, 0x40A1, // 11
    0xC001, 0xC001, // 12
    0, 0, 0, 0, 0, 0, // 13 to 15
];

/// The table's own word for an instruction word.
pub fn control_word(table: &Table, w: u16) -> u16 {
    table[(opcode(w) * 2 + e(w)) as usize]
}

/// "Bits 7..5 unit"
fn unit(c: u16) -> i64 {
    bits(c, 7, 5)
}

/// L12: "bit 15 leaves the choice to f". The other fields but the destination then
/// say nothing (docs/CONFORMANCE.md).
fn leaves_to_f(c: u16) -> bool {
    bits(c, 15, 15) == 1
}

/// "Bit 14: assigned, in unit 1 also by f." By L6 in unit 5 too, and by L12 where
/// bit 15 is set.
pub fn assigned(c: u16, w: u16) -> bool {
    let by_f = match unit(c) {
        _ if leaves_to_f(c) => matches!(f(w), 0..=3),
        1 => comparison(f(w), 0, 0).is_some(),
        5 => extension(f(w), 0, 1).is_some(),
        _ => true,
    };
    bits(c, 14, 14) == 1 && by_f
}

/// "where its unit is 5, f is 4 or 5 and the second operand that its bits 9..8
/// choose is zero, whatever its other fields are" (docs/CONFORMANCE.md)
pub fn zero_divisor(c: u16, w: u16, state: &State) -> bool {
    let (_, rb) = operands(w, state);
    !leaves_to_f(c) && unit(c) == 5 && divides_by_zero(f(w), second_operand(c, w, rb))
}

/// Whether a word or byte that is read or stored is locked, whatever the destination:
/// "result 1 and store 1 touch the word at the unit's result with bit 0 cleared,
/// result 2 and store 2 the byte" (docs/CONFORMANCE.md).
pub fn touches_locked(c: u16, w: u16, state: &State) -> bool {
    let (ra, rb) = operands(w, state);
    let unit = unit_result(c, w, ra, second_operand(c, w, rb));
    let word = bits(c, 4, 2) == 1 || bits(c, 11, 10) == 1;
    let byte = bits(c, 4, 2) == 2 || bits(c, 11, 10) == 2;
    let locked = |touched: Touched| touched.is_locked(state);
    let touches = word && locked(Touched::Word(unit)) || byte && locked(Touched::Byte(unit));
    !leaves_to_f(c) && touches
}

/// "Bits 11..10 store: ... 3 port from Ra."
pub fn writes_port(c: u16) -> bool {
    !leaves_to_f(c) && bits(c, 11, 10) == 3
}

/// "Bits 9..8 second operand: 0 Rb, 1 SE(N6), 2 SE(N8)."
fn second_operand(c: u16, w: u16, rb: u16) -> u16 {
    match bits(c, 9, 8) {
        0 => rb,
        1 => modulo16(sign_extend(bits(w, 5, 0), 6)),
        2 => modulo16(sign_extend(bits(w, 7, 0), 8)),
        _ => 0,
    }
}

/// "unit: 0 opcode 0's operations by f, 1 comparisons by f, 2 sum, 3 second
/// operand, 4 low byte of the first under low byte of the second." 5 is L6's.
fn unit_result(c: u16, w: u16, first: u16, second: u16) -> u16 {
    match unit(c) {
        0 => operation(f(w), first, second),
        1 => comparison(f(w), first, second).unwrap_or(0),
        2 => modulo16(unsigned(first) + unsigned(second)),
        3 => second,
        4 => 256 * (second % 256) + first % 256,
        5 => extension(f(w), first, second).unwrap_or(0),
        _ => 0,
    }
}

/// Ra, which is the "First operand", and Rb.
fn operands(w: u16, state: &State) -> (u16, u16) {
    let of = |register: i64| state.r[register as usize];
    (of(bits(w, 11, 9)), of(bits(w, 8, 6)))
}

/// What a step has read before it writes.
struct Read {
    ra: u16,
    rb: u16,
    unit: u16,
    port: u8,
    pc_plus_2: u16,
}

impl Read {
    fn of(c: u16, w: u16, state: &State) -> Read {
        let (ra, rb) = operands(w, state);
        Read {
            ra,
            rb,
            unit: unit_result(c, w, ra, second_operand(c, w, rb)),
            // "N8 is the port."
            port: bits(w, 7, 0) as u8,
            pc_plus_2: modulo16(i64::from(state.pc) + 2),
        }
    }
}

/// "Bits 4..2 result: 0 unit, 1 word read, 2 SE of the byte read, 3 PC+2,
/// 4 input." "The unit's result is the data address, with bit 0 cleared for a
/// word". Result 4 takes the key as IN does, whatever the destination; no other
/// result looks at a port.
fn result(c: u16, x: &Read, places: &mut Places) -> u16 {
    match bits(c, 4, 2) {
        0 => x.unit,
        1 => data_word(places.d, bit_0_cleared(x.unit)),
        2 => {
            let byte = i64::from(places.d[usize::from(x.unit)]);
            modulo16(sign_extend(byte, 8))
        }
        3 => x.pc_plus_2,
        4 => take_input(places.i, x.port),
        _ => 0,
    }
}

/// "Bits 11..10 store: 0 none, 1 word Rb, 2 byte Rb, 3 port from Ra."
/// Gives the entry that L gains, if any.
fn store(c: u16, x: &Read, n: u32, places: &mut Places) -> Option<u64> {
    match bits(c, 11, 10) {
        1 => store_data_word(places.d, bit_0_cleared(x.unit), x.rb),
        2 => places.d[usize::from(x.unit)] = (x.rb % 256) as u8,
        3 => {
            places.o[usize::from(x.port)] = x.ra;
            return Some(log_entry(n, x.port, x.ra));
        }
        _ => {}
    }
    None
}

/// "Bits 13..12 next: 0 PC+2, 1 branch if Ra is zero, 2 if not (both as
/// rule 8), 3 jump to Ra with bit 0 cleared."
fn next(c: u16, w: u16, x: &Read, pc: u16) -> u16 {
    match bits(c, 13, 12) {
        1 if x.ra == 0 => branch_target(pc, w),
        2 if x.ra != 0 => branch_target(pc, w),
        3 => bit_0_cleared(x.ra),
        _ => x.pc_plus_2,
    }
}

/// "Bits 1..0 destination: 0 none, 1 bits 5..3, 2 bits 8..6, 3 bits 11..9."
fn write_register(c: u16, w: u16, value: u16, after: &mut State) {
    match bits(c, 1, 0) {
        1 => after.r[bits(w, 5, 3) as usize] = value,
        2 => after.r[bits(w, 8, 6) as usize] = value,
        3 => after.r[bits(w, 11, 9) as usize] = value,
        _ => {}
    }
}

/// The step where bit 15 leaves the choice to f: EI, DI, RETI, and GETIID, whose
/// number goes to the destination.
fn step_by_f(c: u16, w: u16, state: State) -> Stepped {
    let mut after = State {
        n: state.n.wrapping_add(1),
        pc: modulo16(i64::from(state.pc) + 2),
        ..state
    };
    if let Some(number) = interrupt(f(w), &mut after) {
        write_register(c, w, number, &mut after);
    }
    Stepped {
        state: after,
        entry: None,
    }
}

/// The instruction, with the control word as an argument; None if unassigned, on a
/// zero divisor, or where it touches a locked byte.
pub fn step(c: u16, w: u16, state: State, places: &mut Places) -> Option<Stepped> {
    if !assigned(c, w) || zero_divisor(c, w, &state) || touches_locked(c, w, &state) {
        return None;
    }
    if leaves_to_f(c) {
        return Some(step_by_f(c, w, state));
    }
    // "Registers are read before any is written." So is memory.
    let x = Read::of(c, w, &state);
    let result = result(c, &x, places);
    let entry = store(c, &x, state.n, places);
    let mut after = State {
        n: state.n.wrapping_add(1),
        pc: next(c, w, &x, state.pc),
        ..state
    };
    write_register(c, w, result, &mut after);
    Some(Stepped {
        state: after,
        entry,
    })
}
