//! The marks of a line, here called tokens, and what one may be.

use std::iter::Peekable;

/// A line's tokens in order, each the bytes it is written with.
pub type Tokens<'a> = Peekable<Split<'a>>;

pub fn tokens(line: &[u8]) -> Tokens<'_> {
    Split { rest: line }.peekable()
}

/// Divides a line into its tokens.
#[derive(Clone)]
pub struct Split<'a> {
    rest: &'a [u8],
}

impl<'a> Iterator for Split<'a> {
    type Item = &'a [u8];

    fn next(&mut self) -> Option<&'a [u8]> {
        // "spaces may stand anywhere outside marks"
        while let Some(rest) = self.rest.strip_prefix(b" ") {
            self.rest = rest;
        }
        if self.rest.is_empty() {
            return None;
        }
        let (token, rest) = self.rest.split_at(length_of_first(self.rest));
        self.rest = rest;
        Some(token)
    }
}

/// The length of the token that these bytes begin with. "letters and digits in
/// a row, and any point before, are one mark, as is `<<`"; any other byte is
/// one of its own.
fn length_of_first(bytes: &[u8]) -> usize {
    let point = usize::from(bytes.starts_with(b"."));
    let row = bytes[point..]
        .iter()
        .take_while(|byte| byte.is_ascii_alphanumeric())
        .count();
    match row {
        0 if bytes.starts_with(b"<<") => 2,
        0 => 1,
        _ => point + row,
    }
}

/// The number of a register, R0 to R7.
pub fn register(token: &[u8]) -> Option<i32> {
    match token {
        [b'R', digit @ b'0'..=b'7'] => Some(i32::from(digit - b'0')),
        _ => None,
    }
}

/// "Names have 1 to 16 letters or digits, begin with a letter, aren't R0 to R7"
pub fn is_name(token: &[u8]) -> bool {
    token.first().is_some_and(u8::is_ascii_alphabetic)
        && token.iter().all(u8::is_ascii_alphanumeric)
        && token.len() <= 16
        && register(token).is_none()
}

/// A literal's value: "decimal, 0x (digits of either case)". "Literals and
/// branch distances are reduced too."
pub fn literal(token: &[u8]) -> Option<u16> {
    let (digits, base) = match token.strip_prefix(b"0x") {
        Some(digits) => (digits, 16),
        None => (token, 10),
    };
    if digits.is_empty() {
        return None;
    }
    let mut value = 0;
    for &digit in digits {
        value = (value * base + char::from(digit).to_digit(base)?) % 65_536;
    }
    Some(value as u16)
}
