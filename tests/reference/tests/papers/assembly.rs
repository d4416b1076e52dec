//! Trims as text: document 02's request L2. Sentences in quotation marks are
//! that request's; every value is worked out from them by hand.

mod fields;
mod lines;
mod names;
mod operands;
mod refusals;
mod sizes;
mod syntax;
mod trims;

use reference::assemble::{assemble, Refused};

/// What the program holds before: no byte is 0, and no two in a row are alike.
fn pattern() -> Vec<u8> {
    (0..65_536).map(|at| 1 + (at % 251) as u8).collect()
}

/// The words of an accepted text. "bytes past the words stay"
pub fn words(text: impl AsRef<[u8]>) -> Vec<u16> {
    let text = text.as_ref();
    let mut program = pattern();
    let count = match assemble(text, &mut program) {
        Ok(count) => count as usize,
        Err(refused) => panic!("{refused:?}: {}", text.escape_ascii()),
    };
    assert!(program[2 * count..] == pattern()[2 * count..]);
    program[..2 * count]
        .chunks(2)
        .map(|pair| u16::from_le_bytes([pair[0], pair[1]]))
        .collect()
}

/// Line and number of a refused text, which leaves the program untouched.
fn refused(text: impl AsRef<[u8]>) -> (u32, u8) {
    let text = text.as_ref();
    let mut program = pattern();
    match assemble(text, &mut program) {
        Ok(count) => panic!("{count} words: {}", text.escape_ascii()),
        Err(Refused { line, number }) => {
            assert!(program == pattern());
            (line, number)
        }
    }
}

/// Each text, of one line, is outside the grammar.
fn all_outside(texts: &[&str]) {
    for text in texts {
        assert_eq!(refused(text), (1, 10), "{text}");
    }
}

/// An operand's value: any fits `.word`.
fn value(operand: &str) -> u16 {
    words(format!(".word {operand}"))[0]
}

/// So many lines of one word.
fn filler(lines: usize) -> String {
    ".word 7\n".repeat(lines)
}
