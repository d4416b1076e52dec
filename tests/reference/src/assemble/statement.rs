//! The statement of a line: an instruction "in 004's syntax", or `.word`.

use super::names::Names;
use super::operand::{operand, Operand};
use super::token::{register, tokens, Tokens};
use crate::instruction::{write, Instruction, Kind, KINDS};
use crate::number::{modulo16, signed, unsigned};

/// The sheet's column "Assembler", then document 000's "MNEMO Rd, Ra, Rb" for
/// L6's five, L12's four, "GETIID alone with an operand, its register", and "`.word`
/// gives a word". Ra, Rb and Rd stand for registers and
/// N6, N8 and N16 for operands; every other token stands for itself.
const SYNTAX: [(&str, Option<Kind>); KINDS + 1] = [
    ("AND Rd, Ra, Rb", Some(Kind::And)),
    ("OR Rd, Ra, Rb", Some(Kind::Or)),
    ("XOR Rd, Ra, Rb", Some(Kind::Xor)),
    ("NOT Rd, Ra", Some(Kind::Not)),
    ("ADD Rd, Ra, Rb", Some(Kind::Add)),
    ("SUB Rd, Ra, Rb", Some(Kind::Sub)),
    ("SHA Rd, Ra, Rb", Some(Kind::Sha)),
    ("SHL Rd, Ra, Rb", Some(Kind::Shl)),
    ("CMPLT Rd, Ra, Rb", Some(Kind::Cmplt)),
    ("CMPLE Rd, Ra, Rb", Some(Kind::Cmple)),
    ("CMPEQ Rd, Ra, Rb", Some(Kind::Cmpeq)),
    ("CMPLTU Rd, Ra, Rb", Some(Kind::Cmpltu)),
    ("CMPLEU Rd, Ra, Rb", Some(Kind::Cmpleu)),
    ("ADDI Rd, Ra, N6", Some(Kind::Addi)),
    ("LD Rd, N6(Ra)", Some(Kind::Ld)),
    ("ST N6(Ra), Rb", Some(Kind::St)),
    ("LDB Rd, N6(Ra)", Some(Kind::Ldb)),
    ("STB N6(Ra), Rb", Some(Kind::Stb)),
    ("JALR Rd, Ra", Some(Kind::Jalr)),
    ("BZ Ra, N8", Some(Kind::Bz)),
    ("BNZ Ra, N8", Some(Kind::Bnz)),
    ("MOVI Rd, N8", Some(Kind::Movi)),
    ("MOVHI Rd, N8", Some(Kind::Movhi)),
    ("IN Rd, N8", Some(Kind::In)),
    ("OUT N8, Ra", Some(Kind::Out)),
    ("MUL Rd, Ra, Rb", Some(Kind::Mul)),
    ("MULH Rd, Ra, Rb", Some(Kind::Mulh)),
    ("MULHU Rd, Ra, Rb", Some(Kind::Mulhu)),
    ("DIV Rd, Ra, Rb", Some(Kind::Div)),
    ("DIVU Rd, Ra, Rb", Some(Kind::Divu)),
    ("EI", Some(Kind::Ei)),
    ("DI", Some(Kind::Di)),
    ("RETI", Some(Kind::Reti)),
    ("GETIID Rd", Some(Kind::Getiid)),
    (".word N16", None),
];

/// How an instruction of this kind is written.
pub fn syntax(kind: Kind) -> &'static str {
    SYNTAX[usize::from(kind.number())].0
}

/// A statement as it was read. Unused registers are 0.
pub struct Statement<'a> {
    /// None for `.word`.
    kind: Option<Kind>,
    a: i32,
    b: i32,
    d: i32,
    operand: Option<Operand<'a>>,
}

/// Reads the statement that the tokens begin with; None if there is none.
pub fn statement<'a>(line: &mut Tokens<'a>) -> Option<Statement<'a>> {
    let first = *line.peek()?;
    let begins = |syntax: &str| tokens(syntax.as_bytes()).next() == Some(first);
    let (syntax, kind) = *SYNTAX.iter().find(|(syntax, _)| begins(syntax))?;
    let mut statement = Statement {
        kind,
        a: 0,
        b: 0,
        d: 0,
        operand: None,
    };
    for part in tokens(syntax.as_bytes()) {
        match part {
            b"Ra" => statement.a = register(line.next()?)?,
            b"Rb" => statement.b = register(line.next()?)?,
            b"Rd" => statement.d = register(line.next()?)?,
            b"N6" | b"N8" | b"N16" => statement.operand = Some(operand(line)?),
            itself => {
                line.next_if(|token| *token == itself)?;
            }
        }
    }
    Some(statement)
}

impl Statement<'_> {
    /// The word of this statement at this address, or the number: "11, a name
    /// unknown", "12, a value its field can't hold".
    pub fn word(&self, address: u16, names: &Names) -> Result<u16, u8> {
        let value = match &self.operand {
            Some(operand) => operand.value(names).ok_or(11)?,
            None => 0,
        };
        let Some(kind) = self.kind else {
            return Ok(value);
        };
        let instruction = Instruction {
            kind,
            a: self.a,
            b: self.b,
            d: self.d,
            n: number_part(kind, value, address).ok_or(12)?,
        };
        // The writer refuses with 7 an n that its field can't hold; the
        // registers are always in range.
        write(instruction).map_err(|_| 12)
    }
}

/// The instruction's n for an operand of this value; None where no n is meant,
/// which is at an odd distance.
fn number_part(kind: Kind, value: u16, address: u16) -> Option<i32> {
    let n = match kind {
        // "A branch operand is its target address; an odd distance doesn't
        // fit." 01: "PC = PC+2+2·SE(N8)"
        Kind::Bz | Kind::Bnz => {
            let distance = signed(modulo16(unsigned(value) - unsigned(address) - 2));
            if distance % 2 != 0 {
                return None;
            }
            distance / 2
        }
        // "MOVI also takes 128 to 255 as the same eight bits"
        Kind::Movi if (128..=255).contains(&value) => unsigned(value) - 256,
        Kind::Movhi | Kind::In | Kind::Out => unsigned(value),
        // "Signed fields read the result as signed"
        _ => signed(value),
    };
    Some(n as i32)
}
