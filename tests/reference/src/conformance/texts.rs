//! "`conformance_texts`: texts"

mod bytes;
mod fields;
mod grammar;
mod lines;
mod names;
mod operands;
mod statements;
pub mod vocabulary;

use super::Digest;
use crate::assemble::{assemble, Refused};
use crate::machine::MEMORY;

/// "texts (paper 02, L2), each ended by a byte 0"; "bytes after the last 0 are
/// no text"
pub fn split(input: &[u8]) -> Vec<&[u8]> {
    let mut texts: Vec<&[u8]> = input.split(|&byte| byte == 0).collect();
    texts.pop();
    texts
}

/// All lines, without line ends.
pub fn lines(input: &[u8]) -> Vec<String> {
    // "at the start byte i is i mod 251, and it is never made anew"
    let mut program: Vec<u8> = (0..MEMORY).map(|at| (at % 251) as u8).collect();
    let line = |(i, text)| format!("text {i} {}", play(text, &mut program));
    split(input).into_iter().enumerate().map(line).collect()
}

/// "REFUSAL LINE WORDS DIGEST"
fn play(text: &[u8], program: &mut [u8]) -> String {
    let (refusal, line, words) = match assemble(text, program) {
        Ok(words) => (0, 0, words),
        Err(Refused { line, number }) => (number, line, 0),
    };
    let mut digest = Digest::default();
    digest.take_all(program);
    format!("{refusal} {line} {words} {}", digest.value())
}

/// Texts of one sort.
pub struct Sort {
    pub what: &'static str,
    /// What L2 has for each of them, 0 where it is accepted; None where they
    /// differ or it is not worked out.
    pub refusal: Option<u8>,
    pub texts: Vec<Vec<u8>>,
}

/// Texts that are all accepted, for 0, or all refused with this number.
fn sort<T: Into<Vec<u8>>>(
    refusal: u8,
    what: &'static str,
    texts: impl IntoIterator<Item = T>,
) -> Sort {
    Sort {
        what,
        refusal: Some(refusal),
        texts: texts.into_iter().map(Into::into).collect(),
    }
}

/// All sorts of texts, in the file's order.
pub fn sorts() -> Vec<Sort> {
    [
        lines::sorts(),
        statements::sorts(),
        fields::sorts(),
        operands::sorts(),
        names::sorts(),
        bytes::sorts(),
        grammar::sorts(),
    ]
    .into_iter()
    .flatten()
    .collect()
}

/// After the last 0: no text.
const TAIL: &[u8] = b".word 9\n";

/// The file of texts, which "The reference writes".
pub fn input() -> Vec<u8> {
    let mut input = Vec::new();
    for text in sorts().iter().flat_map(|sort| &sort.texts) {
        input.extend(text);
        input.push(0);
    }
    input.extend(TAIL);
    input
}
