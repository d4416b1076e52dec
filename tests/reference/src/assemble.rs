//! Trims written as text, as document 02's request L2 says.
//!
//! Sentences in quotation marks are that request's. The text is gone through
//! twice: first each line is read and placed, which gives the names their
//! addresses, then each statement gets its word.

mod line;
mod names;
mod operand;
mod statement;
mod token;
mod trim;

use crate::machine::MEMORY;
use crate::number::modulo16;
use line::{lines, read, Line};
use names::{Given, Names};
use statement::Statement;

pub(crate) use statement::syntax;
pub use trim::{refused_line, trim};

/// "a refusal returns line (from 1; 0 with number 1) and number"
#[derive(Clone, Copy, Debug, PartialEq, Eq)]
pub struct Refused {
    pub line: u32,
    pub number: u8,
}

/// Writes the text's words to the program memory from address 0; "their count
/// is returned". A refusal "leaves it untouched".
pub fn assemble(text: &[u8], program: &mut [u8]) -> Result<u32, Refused> {
    // "The destination is a program memory, tested first for 1"
    if program.len() != MEMORY {
        return Err(Refused { line: 0, number: 1 });
    }
    let words = words(text)?;
    // "bytes past the words stay"
    for (place, word) in program.chunks_exact_mut(2).zip(&words) {
        place.copy_from_slice(&word.to_le_bytes());
    }
    Ok(words.len() as u32)
}

/// The word that one line gives, if any, at this address and with no names, or
/// the lowest number that it has.
pub fn word_at(address: u16, line: &[u8]) -> Result<Option<u16>, u8> {
    let statement = read(line).ok_or(10)?.statement;
    let word = statement.map(|x| x.word(address, &Names::default()));
    word.transpose()
}

/// A line that has a reading, at its place.
struct Placed<'a> {
    /// Its name was "given on an earlier line".
    repeated: bool,
    /// Where its word is, or would be.
    address: u16,
    statement: Option<Statement<'a>>,
}

/// All lines, None for one with 10, and all names.
fn layout(text: &[u8]) -> (Vec<Option<Placed<'_>>>, Names<'_>) {
    let mut all = Vec::new();
    let mut names = Names::default();
    // "Words run on from address 0."
    let mut words = 0;
    for line in lines(text) {
        let address = modulo16(2 * words);
        let placed = line
            .and_then(read)
            .and_then(|line| place(line, address, &mut names));
        if placed.as_ref().is_some_and(|x| x.statement.is_some()) {
            words += 1;
        }
        all.push(placed);
    }
    (all, names)
}

/// Gives the line's name, if any; None where it is one too many, so that the
/// line has 10, "which gives no word or name".
fn place<'a>(line: Line<'a>, address: u16, names: &mut Names<'a>) -> Option<Placed<'a>> {
    let given = line.name.map(|name| names.give(name, address));
    if given == Some(Given::TooMany) {
        return None;
    }
    Some(Placed {
        repeated: given == Some(Given::Again),
        address,
        statement: line.statement,
    })
}

/// The words of all lines. "The first bad line wins, then the lowest number."
fn words(text: &[u8]) -> Result<Vec<u16>, Refused> {
    let (placed, names) = layout(text);
    let mut words = Vec::new();
    for (line, placed) in (1..).zip(&placed) {
        match word(placed, &names) {
            Ok(word) => words.extend(word),
            Err(number) => return Err(Refused { line, number }),
        }
    }
    Ok(words)
}

/// The word that a line gives, if any, or the lowest number that it has.
fn word(placed: &Option<Placed>, names: &Names) -> Result<Option<u16>, u8> {
    let placed = placed.as_ref().ok_or(10)?;
    if placed.repeated {
        return Err(11);
    }
    match &placed.statement {
        Some(statement) => statement.word(placed.address, names).map(Some),
        None => Ok(None),
    }
}
