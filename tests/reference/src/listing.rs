//! What the program `panellist` prints.
//!
//! Sentences in quotation marks are docs/CONFORMANCE.md's.

mod sample;

pub use sample::sample;

use crate::assemble::syntax;
use crate::instruction::{read, Kind};
use crate::load::parts;
use crate::machine::branch_target;
use crate::masks::{masks, registers};
use crate::number::modulo16;
use crate::report::{or_refused, within_65_536};

/// The lines for a file's bytes, without line ends; "where the file is
/// refused, the line that `panelrun` prints for it".
pub fn lines(file: &[u8]) -> Vec<String> {
    or_refused(outcome(file))
}

fn outcome(file: &[u8]) -> Result<Vec<String>, u8> {
    within_65_536(file)?;
    let (program, _) = parts(file)?;
    // "a line for each program word that the file has"
    let words = program.chunks(2).enumerate();
    let line_of = |(at, bytes): (usize, &[u8])| {
        let w = u16::from(bytes[0]) + 256 * u16::from(bytes[1]);
        line(modulo16(2 * at as i64), w)
    };
    Ok(words.map(line_of).collect())
}

/// "ADDRESS WORD TEXT READS WRITES", "five columns with a tab (byte 9) between
/// them"
pub fn line(address: u16, w: u16) -> String {
    let masks = masks(w);
    // "ADDRESS and WORD are four hexadecimal digits, capitals."
    let columns = [
        format!("{address:04X}"),
        format!("{w:04X}"),
        text(address, w),
        named("reads", masks.reads),
        named("writes", masks.writes),
    ];
    columns.join("\t")
}

/// "the instruction as 004's column Assembler writes it, with a space after
/// the mnemonic and after each comma and no other"
fn text(address: u16, w: u16) -> String {
    let Some(x) = read(w) else {
        // "An unassigned word is `.word 0x` and its four digits."
        return format!(".word 0x{w:04X}");
    };
    let n = match x.kind {
        // "the operand of BZ and BNZ is the target's address, as `0x` and four
        // hexadecimal digits, capitals"
        Kind::Bz | Kind::Bnz => format!("0x{:04X}", branch_target(address, w)),
        // "Numbers are decimal, negative ones with a minus sign before"
        _ => x.n.to_string(),
    };
    // No part that is put in holds the name of another.
    syntax(x.kind)
        .replace("Ra", &format!("R{}", x.a))
        .replace("Rb", &format!("R{}", x.b))
        .replace("Rd", &format!("R{}", x.d))
        .replace("N6", &n)
        .replace("N8", &n)
}

/// The column's word, "and for each register [...], in ascending order, a
/// space and its name"
fn named(column: &str, mask: u8) -> String {
    let names = registers(mask).map(|k| format!(" R{k}"));
    column.to_string() + &names.collect::<String>()
}
