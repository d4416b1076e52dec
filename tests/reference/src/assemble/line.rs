//! The lines of a text, and what one gives.

use super::statement::{statement, Statement};
use super::token::{is_name, tokens, Tokens};

/// "at most 65,536 bytes"
const TEXT: usize = 65_536;

/// The bytes of each line without its newline; None for "the line holding its
/// 65,537th byte, where reading ends". A line holds the newline that ends it.
pub fn lines(text: &[u8]) -> Vec<Option<&[u8]>> {
    let read = &text[..text.len().min(TEXT)];
    // "A newline ends a line (the last may lack it)": what follows the last
    // newline, if only nothing, counts as a line here; an empty one does no harm.
    let mut lines: Vec<_> = read.split(|&byte| byte == b'\n').map(Some).collect();
    if text.len() > TEXT {
        lines.pop();
        lines.push(None);
    }
    lines
}

/// What a line gives: "a line may be empty or `name:` alone".
pub struct Line<'a> {
    pub name: Option<&'a [u8]>,
    pub statement: Option<Statement<'a>>,
}

/// Reads a line; None if it is "outside the grammar" or its parentheses nest
/// too deep.
pub fn read(line: &[u8]) -> Option<Line<'_>> {
    let mut tokens = tokens(line);
    let name = label(&mut tokens);
    let statement = match tokens.peek() {
        Some(_) => Some(statement(&mut tokens)?),
        None => None,
    };
    match tokens.next() {
        Some(_) => None,
        None => Some(Line { name, statement }),
    }
}

/// "a line may begin with `name:`": takes it, if it does.
fn label<'a>(tokens: &mut Tokens<'a>) -> Option<&'a [u8]> {
    let mut ahead = tokens.clone();
    let name = ahead.next().filter(|token| is_name(token))?;
    ahead.next_if(|token| *token == b":")?;
    *tokens = ahead;
    Some(name)
}
