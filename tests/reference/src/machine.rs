//! The plain machine: its state and its step.

use crate::number::{bit_0_cleared, bits, modulo16, sign_extend, signed, unsigned};

/// "program P and data D, 65,536 bytes each"
pub const MEMORY: usize = 65_536;

/// "inputs I and outputs O, 256 words of 16 bits each"
pub const PORTS: usize = 256;

/// "R0 to R7 and PC (16 bits each); n, the steps done (32 bits)"
#[derive(Clone, Copy, Debug, PartialEq, Eq)]
pub struct State {
    pub r: [u16; 8],
    pub pc: u16,
    pub n: u32,
    /// L7: "The state counts these entries", those of the journal.
    pub journaled: u64,
    /// L11: "The board is named at load [...] and kept in the state." A host may
    /// hand in any byte.
    pub board: u8,
    /// L12: "an enable flag", off for 0 and on for any other byte (the issue).
    pub enabled: u8,
    /// L12: "a pending byte (bit k for line k)"
    pub pending: u8,
    /// L12: "a line number"
    pub line: u8,
    /// L12: "a return address"
    pub return_address: u16,
    /// L14: "A load may name a range of data memory, first to last, possibly none,
    /// which the state keeps": none for 0, a range for any other byte (the issue).
    pub locked: u8,
    pub first_locked: u16,
    pub last_locked: u16,
}

/// The boards: L11's "new board fetches from data memory [...]; older boards stay in
/// use".
#[derive(Clone, Copy, Debug, PartialEq, Eq)]
pub enum Memories {
    /// An older board.
    Two,
    /// "The single-memory board."
    Single,
}

impl Memories {
    /// By its number, in a load's argument and in the state: "0 two memories, any
    /// other the single memory" (the issue).
    pub fn of(board: u8) -> Memories {
        match board {
            0 => Memories::Two,
            _ => Memories::Single,
        }
    }

    /// The number that a load puts into the state.
    pub fn number(self) -> u8 {
        match self {
            Memories::Two => 0,
            Memories::Single => 1,
        }
    }
}

impl State {
    /// "A reset machine has every register, PC and n at zero." L7's count is
    /// "from 0 at a load", and L12's fields are "all 0 at reset". Of an older board,
    /// and no range is locked.
    pub fn reset() -> State {
        State {
            r: [0; 8],
            pc: 0,
            n: 0,
            journaled: 0,
            board: 0,
            enabled: 0,
            pending: 0,
            line: 0,
            return_address: 0,
            locked: 0,
            first_locked: 0,
            last_locked: 0,
        }
    }

    /// Whether the byte of data memory at this address is locked; a range whose first
    /// is over its last has none.
    pub fn locks(&self, address: u16) -> bool {
        self.locked != 0 && (self.first_locked..=self.last_locked).contains(&address)
    }

    /// Whether one of the word's two bytes is.
    fn locks_word(&self, address: u16) -> bool {
        self.locks(address) || self.locks(modulo16(i64::from(address) + 1))
    }

    /// L14: "a fetch [...] touching a locked byte", which an older board's can't:
    /// there the range is of data.
    pub fn locks_fetch(&self) -> bool {
        self.memories() == Memories::Single && self.locks_word(self.pc)
    }

    /// The board that the state names.
    pub fn memories(&self) -> Memories {
        Memories::of(self.board)
    }
}

/// P, D, I and O as a host lends them, of any lengths. L8: "inputs count among
/// what a run may change".
pub struct Lent<'a> {
    pub p: &'a [u8],
    pub d: &'a mut [u8],
    pub i: &'a mut [u16],
    pub o: &'a mut [u16],
}

/// P, D, I and O of exactly the machine's lengths.
pub struct Places<'a> {
    pub p: &'a [u8; MEMORY],
    pub d: &'a mut [u8; MEMORY],
    pub i: &'a mut [u16; PORTS],
    pub o: &'a mut [u16; PORTS],
}

impl<'a> Places<'a> {
    /// None if "P or D not 65,536 bytes, or I or O not 256 words".
    pub fn of(lent: Lent<'a>) -> Option<Places<'a>> {
        Some(Places {
            p: lent.p.try_into().ok()?,
            d: lent.d.try_into().ok()?,
            i: lent.i.try_into().ok()?,
            o: lent.o.try_into().ok()?,
        })
    }

    /// The memory that holds the instructions: P, or by L11 D, where "a store may
    /// change the instruction that follows".
    fn fetch_memory(&self, board: Memories) -> &[u8; MEMORY] {
        match board {
            Memories::Two => self.p,
            Memories::Single => self.d,
        }
    }

    /// The word at PC.
    pub fn fetch(&self, state: &State) -> u16 {
        word(self.fetch_memory(state.memories()), state.pc)
    }
}

/// What a step leaves: the state, and the entry that L gains, if any.
#[derive(Clone, Copy, Debug, PartialEq, Eq)]
pub struct Stepped {
    pub state: State,
    pub entry: Option<u64>,
}

/// "w is P[PC] + 256 times P[PC+1]", of the fetch memory.
fn word(fetch_memory: &[u8; MEMORY], pc: u16) -> u16 {
    let low = fetch_memory[usize::from(pc)];
    let high = fetch_memory[usize::from(modulo16(i64::from(pc) + 1))];
    u16::from(low) + 256 * u16::from(high)
}

/// "opcode = bits 15..12"
pub fn opcode(w: u16) -> i64 {
    bits(w, 15, 12)
}

/// "e = bit 8"
pub fn e(w: u16) -> i64 {
    bits(w, 8, 8)
}

/// "f = 2..0"
pub fn f(w: u16) -> i64 {
    bits(w, 2, 0)
}

/// Whether w is one of the 34 instructions.
pub fn assigned(w: u16) -> bool {
    match opcode(w) {
        // "f = 2, 6, 7 unassigned"
        1 => comparison(f(w), 0, 0).is_some(),
        // L6: "3, 6 and 7 stay unassigned"
        11 => extension(f(w), 0, 1).is_some(),
        // L12: "f = 0, 1, 2, 3, [...] other f unassigned"
        12 => matches!(f(w), 0..=3),
        // "11 to 15 | unassigned", 11 and 12 no more
        13..=15 => false,
        _ => true,
    }
}

/// Whether w, an assigned word, is DIV or DIVU and Rb is zero.
pub fn zero_divisor(w: u16, state: &State) -> bool {
    opcode(w) == 11 && divides_by_zero(f(w), Fields::of(w, state).rb)
}

/// What a load or store touches of data memory, if anything, by the address before
/// bit 0 is cleared.
#[derive(Clone, Copy, Debug, PartialEq, Eq)]
pub enum Touched {
    Word(u16),
    Byte(u16),
}

impl Touched {
    /// L14: "load or store touching a locked byte".
    pub fn is_locked(self, state: &State) -> bool {
        match self {
            Touched::Word(address) => state.locks_word(bit_0_cleared(address)),
            Touched::Byte(address) => state.locks(address),
        }
    }
}

/// Whether w, an assigned word, is LD, ST, LDB or STB and touches a locked byte.
pub fn touches_locked(w: u16, state: &State) -> bool {
    let touched = match opcode(w) {
        3 | 4 => Touched::Word(Fields::of(w, state).address()),
        5 | 6 => Touched::Byte(Fields::of(w, state).address()),
        _ => return false,
    };
    touched.is_locked(state)
}

/// "10 | e=1 OUT"
pub fn is_out(w: u16) -> bool {
    opcode(w) == 10 && e(w) == 1
}

/// "0 | f = 0..7: AND, OR, XOR, NOT (of Ra), ADD, SUB, SHA, SHL"
pub fn operation(f: i64, ra: u16, rb: u16) -> u16 {
    match f {
        0 => ra & rb,
        1 => ra | rb,
        2 => ra ^ rb,
        3 => !ra,
        4 => modulo16(unsigned(ra) + unsigned(rb)),
        5 => modulo16(unsigned(ra) - unsigned(rb)),
        // Sheet: Rd = Ra (signed) * 2 ** Rb<4..0> (signed)
        6 => shift(signed(ra), shift_amount(rb)),
        // Sheet: Rd = Ra (unsigned) * 2 ** Rb<4..0> (signed)
        _ => shift(unsigned(ra), shift_amount(rb)),
    }
}

/// "SHA and SHL shift Ra by the low 5 bits of Rb read as signed, -16 to 15."
fn shift_amount(rb: u16) -> i64 {
    sign_extend(bits(rb, 4, 0), 5)
}

/// "Positive is left with zeros. Negative is right: SHA fills with Ra's
/// bit 15, SHL with zeros."
///
/// A right shift is a division rounded down. Of a negative number (SHA, bit 15
/// set) that fills with ones, of any other with zeros.
fn shift(value: i64, amount: i64) -> u16 {
    let power = 2_i64.pow(amount.unsigned_abs() as u32);
    if amount >= 0 {
        modulo16(value * power)
    } else {
        modulo16(value.div_euclid(power))
    }
}

/// "1 | Rd is 1 or 0; f = 0 CMPLT, 1 CMPLE (signed), 3 CMPEQ, 4 CMPLTU,
/// 5 CMPLEU (unsigned); f = 2, 6, 7 unassigned"
pub fn comparison(f: i64, ra: u16, rb: u16) -> Option<u16> {
    let holds = match f {
        0 => signed(ra) < signed(rb),
        1 => signed(ra) <= signed(rb),
        3 => ra == rb,
        4 => unsigned(ra) < unsigned(rb),
        5 => unsigned(ra) <= unsigned(rb),
        _ => return None,
    };
    Some(if holds { 1 } else { 0 })
}

/// L6: "0 MUL low half, 1 MULH signed, 2 MULHU unsigned high half, 4 DIV
/// signed, 5 DIVU; 3, 6 and 7 stay unassigned". None for those three, and for a
/// zero divisor.
pub fn extension(f: i64, ra: u16, rb: u16) -> Option<u16> {
    let value = match f {
        0 => unsigned(ra) * unsigned(rb),
        1 => high_half(signed(ra) * signed(rb)),
        2 => high_half(unsigned(ra) * unsigned(rb)),
        // L6: "DIV rounds toward zero and keeps 16 bits", as `checked_div` and
        // `modulo16` do
        4 => signed(ra).checked_div(signed(rb))?,
        5 => unsigned(ra).checked_div(unsigned(rb))?,
        _ => return None,
    };
    Some(modulo16(value))
}

/// Bits 31..16 and all above, so that a negative product is rounded down.
fn high_half(product: i64) -> i64 {
    product.div_euclid(65_536)
}

/// Whether `extension` divides for this f, and by zero.
pub fn divides_by_zero(f: i64, divisor: u16) -> bool {
    matches!(f, 4 | 5) && divisor == 0
}

/// "Rd = D[A'] + 256 times D[A'+1]", `even` being A'.
pub fn data_word(d: &[u8; MEMORY], even: u16) -> u16 {
    let at = usize::from(bit_0_cleared(even));
    u16::from(d[at]) + 256 * u16::from(d[at + 1])
}

/// "the word at A' becomes Rb, low byte first", `even` being A'.
pub fn store_data_word(d: &mut [u8; MEMORY], even: u16, rb: u16) {
    let at = usize::from(bit_0_cleared(even));
    d[at] = (rb % 256) as u8;
    d[at + 1] = (rb / 256) as u8;
}

/// I[port]. L8: "IN from port 1 now also sets input 0 to zero".
pub fn take_input(i: &mut [u16; PORTS], port: u8) -> u16 {
    let value = i[usize::from(port)];
    if reads_key(port) {
        i[0] = 0;
    }
    value
}

/// L8: "Input port 0 is the key's status and port 1 its data."
pub fn reads_key(port: u8) -> bool {
    port == 1
}

/// "n before the step times 16,777,216, plus port times 65,536, plus value"
pub fn log_entry(n: u32, port: u8, value: u16) -> u64 {
    u64::from(n) * 16_777_216 + u64::from(port) * 65_536 + u64::from(value)
}

/// "PC = PC+2+2·SE(N8)"
pub fn branch_target(pc: u16, w: u16) -> u16 {
    let n8 = sign_extend(bits(w, 7, 0), 8);
    modulo16(i64::from(pc) + 2 + 2 * n8)
}

/// What a state becomes by taking a line, if there is one to take. L12: "Before each
/// step's fetch, if enabled and a bit is set, the lowest line is taken: its bit
/// clears, its number and PC are kept, PC becomes 0x0100, enable clears. Taking
/// counts as one step".
pub fn taken(state: State) -> Option<State> {
    let k = lowest_line(state.pending).filter(|_| state.enabled != 0)?;
    Some(State {
        pending: state.pending - 2_u8.pow(k.into()),
        line: k,
        return_address: state.pc,
        pc: 0x0100,
        enabled: 0,
        n: state.n.wrapping_add(1),
        ..state
    })
}

/// The lowest line whose bit is set.
pub fn lowest_line(pending: u8) -> Option<u8> {
    (0..8).find(|&k| bits(pending.into(), k.into(), k.into()) == 1)
}

/// What EI, DI, RETI and GETIID do, by f, to a state whose PC is already PC+2: the
/// number that GETIID reads.
pub fn interrupt(f: i64, after: &mut State) -> Option<u16> {
    match f {
        // L12: "EI and DI set and clear enable."
        0 => after.enabled = 1,
        1 => after.enabled = 0,
        // L12: "RETI returns and sets enable."
        2 => {
            after.pc = after.return_address;
            after.enabled = 1;
        }
        // L12: "GETIID reads the number."
        3 => return Some(after.line.into()),
        _ => {}
    }
    None
}

/// The fields of w, and the registers that a and b name.
struct Fields {
    ra: u16,
    rb: u16,
    d_5_3: usize,
    d_8_6: usize,
    d_11_9: usize,
    se_n6: i64,
    n8: u8,
    se_n8: i64,
}

impl Fields {
    fn of(w: u16, state: &State) -> Fields {
        Fields {
            // "a = bits 11..9, b = 8..6"
            ra: state.r[bits(w, 11, 9) as usize],
            rb: state.r[bits(w, 8, 6) as usize],
            // "The destination d is 5..3 for opcodes 0 and 1, 8..6 for 2, 3,
            // 5, 7, and 11..9 for 9 and IN." L6's opcode 11 is "like opcode 0",
            // and L12's 12 has "destination bits 5..3".
            d_5_3: bits(w, 5, 3) as usize,
            d_8_6: bits(w, 8, 6) as usize,
            d_11_9: bits(w, 11, 9) as usize,
            // "N6 and N8 are the low 6 and 8 bits, SE is sign extension to 16
            // bits."
            se_n6: sign_extend(bits(w, 5, 0), 6),
            n8: bits(w, 7, 0) as u8,
            se_n8: sign_extend(bits(w, 7, 0), 8),
        }
    }

    /// "A is Ra+SE(N6)"
    fn address(&self) -> u16 {
        modulo16(unsigned(self.ra) + self.se_n6)
    }
}

/// One step: a line is taken, or the instruction at PC is done.
pub fn step(state: State, places: &mut Places) -> Option<Stepped> {
    match taken(state) {
        Some(state) => Some(Stepped { state, entry: None }),
        None => instruction(state, places),
    }
}

/// The instruction at PC, or None: "If w is unassigned, no step is possible." L6:
/// "the plain machine so widened, which can't step on a zero divisor". L14: where a
/// locked byte is touched "the plain machine can't step there either".
fn instruction(state: State, places: &mut Places) -> Option<Stepped> {
    if state.locks_fetch() {
        return None;
    }
    let w = places.fetch(&state);
    if !assigned(w) || zero_divisor(w, &state) || touches_locked(w, &state) {
        return None;
    }
    let x = Fields::of(w, &state);
    // "Otherwise the rule below is done and n grows by 1. Where the rule
    // doesn't name PC, PC becomes PC+2."
    let mut after = State {
        n: state.n.wrapping_add(1),
        pc: modulo16(i64::from(state.pc) + 2),
        ..state
    };
    let mut entry = None;
    match opcode(w) {
        0..=2 | 11 => calculate(w, &x, &mut after)?,
        3..=6 => access_memory(w, &x, places.d, &mut after),
        7 | 8 => break_sequence(w, &x, state.pc, &mut after),
        9 => move_immediate(w, &x, &mut after),
        12 => {
            if let Some(number) = interrupt(f(w), &mut after) {
                after.r[x.d_5_3] = number;
            }
        }
        _ => entry = access_port(w, &x, state.n, places, &mut after),
    }
    Some(Stepped {
        state: after,
        entry,
    })
}

/// Opcodes 0 to 2, and 11.
fn calculate(w: u16, x: &Fields, after: &mut State) -> Option<()> {
    match opcode(w) {
        // "0 | f = 0..7: AND, OR, XOR, NOT (of Ra), ADD, SUB, SHA, SHL"
        0 => after.r[x.d_5_3] = operation(f(w), x.ra, x.rb),
        // "1 | Rd is 1 or 0; f = 0 CMPLT, 1 CMPLE (signed), 3 CMPEQ,
        // 4 CMPLTU, 5 CMPLEU (unsigned); f = 2, 6, 7 unassigned"
        1 => after.r[x.d_5_3] = comparison(f(w), x.ra, x.rb)?,
        // "2 ADDI | Rd = Ra+SE(N6)"
        2 => after.r[x.d_8_6] = modulo16(unsigned(x.ra) + x.se_n6),
        // L6: "Opcode 11 becomes a three-register format like opcode 0"
        _ => after.r[x.d_5_3] = extension(f(w), x.ra, x.rb)?,
    }
    Some(())
}

/// Opcodes 3 to 6.
fn access_memory(w: u16, x: &Fields, d: &mut [u8; MEMORY], after: &mut State) {
    let address = x.address();
    // "A' is A with bit 0 cleared."
    let even = bit_0_cleared(address);
    match opcode(w) {
        // "3 LD | Rd = D[A'] + 256 times D[A'+1]"
        3 => after.r[x.d_8_6] = data_word(d, even),
        // "4 ST | the word at A' becomes Rb, low byte first"
        4 => store_data_word(d, even, x.rb),
        // "5 LDB | Rd = SE(D[A])"
        5 => {
            let byte = i64::from(d[usize::from(address)]);
            after.r[x.d_8_6] = modulo16(sign_extend(byte, 8));
        }
        // "6 STB | D[A] = low byte of Rb"
        _ => d[usize::from(address)] = (x.rb % 256) as u8,
    }
}

/// Opcodes 7 and 8.
fn break_sequence(w: u16, x: &Fields, pc: u16, after: &mut State) {
    match (opcode(w), e(w)) {
        // "7 JALR | target = Ra with bit 0 cleared, read first; Rd = PC+2;
        // PC = target; bits 5..0 ignored"
        (7, _) => {
            let target = bit_0_cleared(x.ra);
            after.r[x.d_8_6] = modulo16(i64::from(pc) + 2);
            after.pc = target;
        }
        // "8 | e=0 BZ, e=1 BNZ: if Ra is zero (not zero), PC =
        // PC+2+2·SE(N8)"
        (_, 0) if x.ra == 0 => after.pc = branch_target(pc, w),
        (_, 1) if x.ra != 0 => after.pc = branch_target(pc, w),
        _ => {}
    }
}

/// Opcode 9.
fn move_immediate(w: u16, x: &Fields, after: &mut State) {
    let rd = &mut after.r[x.d_11_9];
    *rd = match e(w) {
        // "e=0 MOVI: Rd = SE(N8)"
        0 => modulo16(x.se_n8),
        // "e=1 MOVHI: high byte of Rd = N8"
        _ => 256 * u16::from(x.n8) + *rd % 256,
    };
}

/// Opcode 10: the entry that L gains, if any.
fn access_port(w: u16, x: &Fields, n: u32, places: &mut Places, after: &mut State) -> Option<u64> {
    if e(w) == 0 {
        // "e=0 IN: Rd = I[N8]"
        after.r[x.d_11_9] = take_input(places.i, x.n8);
        return None;
    }
    // "e=1 OUT: O[N8] = Ra, and L gains an entry"
    places.o[usize::from(x.n8)] = x.ra;
    Some(log_entry(n, x.n8, x.ra))
}
