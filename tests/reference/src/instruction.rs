//! Reading and writing one instruction.

use crate::number::{bits, sign_extend};

/// L12: "the kinds become 34"
pub const KINDS: usize = 34;

/// The kinds, numbered 0 to 24 in the order of the sheet's second table, then 25
/// to 29 in that of L6 and 30 to 33 in that of L12.
#[derive(Clone, Copy, Debug, PartialEq, Eq)]
pub enum Kind {
    And = 0,
    Or = 1,
    Xor = 2,
    Not = 3,
    Add = 4,
    Sub = 5,
    Sha = 6,
    Shl = 7,
    Cmplt = 8,
    Cmple = 9,
    Cmpeq = 10,
    Cmpltu = 11,
    Cmpleu = 12,
    Addi = 13,
    Ld = 14,
    St = 15,
    Ldb = 16,
    Stb = 17,
    Jalr = 18,
    Bz = 19,
    Bnz = 20,
    Movi = 21,
    Movhi = 22,
    In = 23,
    Out = 24,
    Mul = 25,
    Mulh = 26,
    Mulhu = 27,
    Div = 28,
    Divu = 29,
    Ei = 30,
    Di = 31,
    Reti = 32,
    Getiid = 33,
}

impl Kind {
    pub fn number(self) -> u8 {
        self as u8
    }

    pub fn from_number(number: u8) -> Option<Kind> {
        SHEET.get(usize::from(number)).map(|row| row.kind)
    }
}

/// "An instruction is one of the [...] kinds with a, b, d, n". The parts are wide
/// enough to hold values out of range, which the writer refuses.
#[derive(Clone, Copy, Debug, PartialEq, Eq)]
pub struct Instruction {
    pub kind: Kind,
    pub a: i32,
    pub b: i32,
    pub d: i32,
    pub n: i32,
}

/// How the sheet's columns "e" and "F" tell kinds of one opcode apart.
#[derive(Clone, Copy)]
enum Select {
    Opcode,
    E(i32),
    F(i32),
}

/// The sheet's formats, by the parts they hold.
#[derive(Clone, Copy)]
enum Form {
    /// 3R: cccc aaa bbb ddd fff
    Abd,
    /// 3R without b: cccc aaa 000 ddd fff (NOT)
    Ad3,
    /// 2R: cccc aaa ddd nnnnnn, N6 signed (ADDI, LD, LDB)
    AdN6,
    /// 2R: cccc aaa bbb nnnnnn, N6 signed (ST, STB)
    AbN6,
    /// 2R without n: cccc aaa ddd 000000 (JALR)
    Ad2,
    /// 1R: cccc aaa e nnnnnnnn, N8 signed (BZ, BNZ)
    ASignedN8,
    /// 1R: cccc ddd e nnnnnnnn, N8 signed (MOVI)
    DSignedN8,
    /// 1R: cccc ddd e nnnnnnnn, N8 unsigned (MOVHI, IN)
    DUnsignedN8,
    /// 1R: cccc aaa e nnnnnnnn, N8 unsigned (OUT)
    AUnsignedN8,
    /// 3R without registers: cccc 000 000 000 fff (EI, DI, RETI)
    F,
    /// 3R with d alone: cccc 000 000 ddd fff (GETIID)
    D3,
}

#[derive(Clone, Copy)]
struct Row {
    kind: Kind,
    opcode: i32,
    select: Select,
    form: Form,
}

const fn row(kind: Kind, opcode: i32, select: Select, form: Form) -> Row {
    Row {
        kind,
        opcode,
        select,
        form,
    }
}

/// The sheet's second table: mnemonic, op. code, e or F, format. Then L6's five,
/// "a three-register format like opcode 0", and L12's four, "opcode 12, f = 0, 1, 2,
/// 3, destination bits 5..3".
const SHEET: [Row; KINDS] = [
    row(Kind::And, 0, Select::F(0), Form::Abd),
    row(Kind::Or, 0, Select::F(1), Form::Abd),
    row(Kind::Xor, 0, Select::F(2), Form::Abd),
    row(Kind::Not, 0, Select::F(3), Form::Ad3),
    row(Kind::Add, 0, Select::F(4), Form::Abd),
    row(Kind::Sub, 0, Select::F(5), Form::Abd),
    row(Kind::Sha, 0, Select::F(6), Form::Abd),
    row(Kind::Shl, 0, Select::F(7), Form::Abd),
    row(Kind::Cmplt, 1, Select::F(0), Form::Abd),
    row(Kind::Cmple, 1, Select::F(1), Form::Abd),
    row(Kind::Cmpeq, 1, Select::F(3), Form::Abd),
    row(Kind::Cmpltu, 1, Select::F(4), Form::Abd),
    row(Kind::Cmpleu, 1, Select::F(5), Form::Abd),
    row(Kind::Addi, 2, Select::Opcode, Form::AdN6),
    row(Kind::Ld, 3, Select::Opcode, Form::AdN6),
    row(Kind::St, 4, Select::Opcode, Form::AbN6),
    row(Kind::Ldb, 5, Select::Opcode, Form::AdN6),
    row(Kind::Stb, 6, Select::Opcode, Form::AbN6),
    row(Kind::Jalr, 7, Select::Opcode, Form::Ad2),
    row(Kind::Bz, 8, Select::E(0), Form::ASignedN8),
    row(Kind::Bnz, 8, Select::E(1), Form::ASignedN8),
    row(Kind::Movi, 9, Select::E(0), Form::DSignedN8),
    row(Kind::Movhi, 9, Select::E(1), Form::DUnsignedN8),
    row(Kind::In, 10, Select::E(0), Form::DUnsignedN8),
    row(Kind::Out, 10, Select::E(1), Form::AUnsignedN8),
    row(Kind::Mul, 11, Select::F(0), Form::Abd),
    row(Kind::Mulh, 11, Select::F(1), Form::Abd),
    row(Kind::Mulhu, 11, Select::F(2), Form::Abd),
    row(Kind::Div, 11, Select::F(4), Form::Abd),
    row(Kind::Divu, 11, Select::F(5), Form::Abd),
    row(Kind::Ei, 12, Select::F(0), Form::F),
    row(Kind::Di, 12, Select::F(1), Form::F),
    row(Kind::Reti, 12, Select::F(2), Form::F),
    row(Kind::Getiid, 12, Select::F(3), Form::D3),
];

/// Whether a word is of this row's kind.
fn is_of(row: &Row, w: u16) -> bool {
    let selected = match row.select {
        Select::Opcode => true,
        Select::E(e) => bits(w, 8, 8) == i64::from(e),
        Select::F(f) => bits(w, 2, 0) == i64::from(f),
    };
    bits(w, 15, 12) == i64::from(row.opcode) && selected
}

/// "Every 16-bit word reads as one of the [...] instructions or as unassigned"
/// (demand 2); None is unassigned. Unused parts are 0: NOT's b and JALR's bits
/// 5..0 are ignored. L12: "Unused bits are written 0 and ignored when read".
pub fn read(w: u16) -> Option<Instruction> {
    let row = SHEET.iter().find(|row| is_of(row, w))?;
    let bits_11_9 = bits(w, 11, 9) as i32;
    let bits_8_6 = bits(w, 8, 6) as i32;
    let bits_5_3 = bits(w, 5, 3) as i32;
    let n6 = sign_extend(bits(w, 5, 0), 6) as i32;
    let signed_n8 = sign_extend(bits(w, 7, 0), 8) as i32;
    let unsigned_n8 = bits(w, 7, 0) as i32;
    let (a, b, d, n) = match row.form {
        Form::Abd => (bits_11_9, bits_8_6, bits_5_3, 0),
        Form::Ad3 => (bits_11_9, 0, bits_5_3, 0),
        Form::AdN6 => (bits_11_9, 0, bits_8_6, n6),
        Form::AbN6 => (bits_11_9, bits_8_6, 0, n6),
        Form::Ad2 => (bits_11_9, 0, bits_8_6, 0),
        Form::ASignedN8 => (bits_11_9, 0, 0, signed_n8),
        Form::DSignedN8 => (0, 0, bits_11_9, signed_n8),
        Form::DUnsignedN8 => (0, 0, bits_11_9, unsigned_n8),
        Form::AUnsignedN8 => (bits_11_9, 0, 0, unsigned_n8),
        Form::F => (0, 0, 0, 0),
        Form::D3 => (0, 0, bits_5_3, 0),
    };
    Some(Instruction {
        kind: row.kind,
        a,
        b,
        d,
        n,
    })
}

/// "Registers are 0 to 7. n is -32..31 for N6, -128..127 for BZ, BNZ, MOVI,
/// and 0..255 for MOVHI, IN, OUT. Unused parts must be 0."
fn in_range(x: &Instruction, form: Form) -> bool {
    let register = |part: i32| (0..=7).contains(&part);
    let unused = |part: i32| part == 0;
    let n6 = (-32..=31).contains(&x.n);
    let signed_n8 = (-128..=127).contains(&x.n);
    let unsigned_n8 = (0..=255).contains(&x.n);
    match form {
        Form::Abd => register(x.a) && register(x.b) && register(x.d) && unused(x.n),
        Form::Ad3 => register(x.a) && unused(x.b) && register(x.d) && unused(x.n),
        Form::AdN6 => register(x.a) && unused(x.b) && register(x.d) && n6,
        Form::AbN6 => register(x.a) && register(x.b) && unused(x.d) && n6,
        Form::Ad2 => register(x.a) && unused(x.b) && register(x.d) && unused(x.n),
        Form::ASignedN8 => register(x.a) && unused(x.b) && unused(x.d) && signed_n8,
        Form::DSignedN8 => unused(x.a) && unused(x.b) && register(x.d) && signed_n8,
        Form::DUnsignedN8 => unused(x.a) && unused(x.b) && register(x.d) && unsigned_n8,
        Form::AUnsignedN8 => register(x.a) && unused(x.b) && unused(x.d) && unsigned_n8,
        Form::F => unused(x.a) && unused(x.b) && unused(x.d) && unused(x.n),
        Form::D3 => unused(x.a) && unused(x.b) && register(x.d) && unused(x.n),
    }
}

/// "each instruction is written as the sheet's word" (demand 2), or 7:
/// "instruction with a part out of range, or an unused part not 0".
pub fn write(x: Instruction) -> Result<u16, u8> {
    let row = SHEET[usize::from(x.kind.number())];
    if !in_range(&x, row.form) {
        return Err(7);
    }
    // A negative n is written modulo the size of its field.
    let n6 = x.n.rem_euclid(64);
    let n8 = x.n.rem_euclid(256);
    let (e, f) = match row.select {
        Select::Opcode => (0, 0),
        Select::E(e) => (e, 0),
        Select::F(f) => (0, f),
    };
    let rest = match row.form {
        Form::Abd => x.a * 512 + x.b * 64 + x.d * 8 + f,
        Form::Ad3 => x.a * 512 + x.d * 8 + f,
        Form::AdN6 => x.a * 512 + x.d * 64 + n6,
        Form::AbN6 => x.a * 512 + x.b * 64 + n6,
        Form::Ad2 => x.a * 512 + x.d * 64,
        Form::ASignedN8 | Form::AUnsignedN8 => x.a * 512 + e * 256 + n8,
        Form::DSignedN8 | Form::DUnsignedN8 => x.d * 512 + e * 256 + n8,
        Form::F => f,
        Form::D3 => x.d * 8 + f,
    };
    Ok((row.opcode * 4_096 + rest) as u16)
}

/// The same with the kind by its number: "a kind over 33 is refused with 7"
/// (docs/CONFORMANCE.md, and so the header).
pub fn write_numbered(kind: u8, a: i32, b: i32, d: i32, n: i32) -> Result<u16, u8> {
    let kind = Kind::from_number(kind).ok_or(7)?;
    write(Instruction { kind, a, b, d, n })
}
