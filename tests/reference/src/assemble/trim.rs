//! A trim file made from a text.

use super::{assemble, Refused};
use crate::machine::{State, MEMORY};
use crate::save::save;

/// The file of the text's words, with no data.
pub fn trim(text: &[u8]) -> Result<Vec<u8>, Refused> {
    let mut program = vec![0; MEMORY];
    assemble(text, &mut program)?;
    let mut file = vec![0; 16 + MEMORY];
    // The file fits: a header, the program and no data.
    let saved = save(&State::reset(), &program, &[0; MEMORY], &mut file);
    let length = saved.unwrap_or(0);
    file.truncate(length);
    Ok(file)
}

/// The line printed for a refusal.
pub fn refused_line(refused: Refused) -> String {
    let reason = match refused.number {
        1 => "the program memory is not 65,536 bytes",
        10 => "outside the grammar or past a stated size",
        11 => "a name unknown or given before",
        _ => "a value its field can't hold",
    };
    format!(
        "line {}: refused {}, {reason}",
        refused.line, refused.number
    )
}
