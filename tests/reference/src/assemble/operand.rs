//! Operands: how one is read, and its value.

use super::names::Names;
use super::token::{is_name, literal, Tokens};
use crate::number::{modulo16, unsigned};

/// "parentheses nest to depth 16"
const DEPTH: u32 = 16;

/// The operators of two operands.
#[derive(Clone, Copy)]
pub enum Operator {
    Times,
    Plus,
    Minus,
    Shift,
    And,
    Or,
}

/// Ranks of operators from the loosest to the tightest; unary minus is tighter
/// than all.
const LOOSEST: u32 = 1;
const TIGHTEST: u32 = 5;

/// "tightest first, unary minus (also repeated), `*`, then `+` and `-`, `<<`,
/// `&`, `|`"
fn operator(token: &[u8]) -> Option<(Operator, u32)> {
    match token {
        b"*" => Some((Operator::Times, 5)),
        b"+" => Some((Operator::Plus, 4)),
        b"-" => Some((Operator::Minus, 4)),
        b"<<" => Some((Operator::Shift, 3)),
        b"&" => Some((Operator::And, 2)),
        b"|" => Some((Operator::Or, 1)),
        _ => None,
    }
}

/// An operand as it was read. A chain is flat, so that only ranks and
/// parentheses make operands within operands.
pub enum Operand<'a> {
    Literal(u16),
    Name(&'a [u8]),
    /// So many minuses, then their operand.
    Negated(usize, Box<Operand<'a>>),
    /// An operand, then operators of one rank, each with its right operand.
    Chain(Box<Operand<'a>>, Vec<(Operator, Operand<'a>)>),
}

/// Reads the operand that the tokens begin with; None if there is none.
pub fn operand<'a>(tokens: &mut Tokens<'a>) -> Option<Operand<'a>> {
    chain(tokens, LOOSEST, 0)
}

/// A chain of operators of this rank, inside so many parentheses.
fn chain<'a>(tokens: &mut Tokens<'a>, rank: u32, depth: u32) -> Option<Operand<'a>> {
    if rank > TIGHTEST {
        return negated(tokens, depth);
    }
    let first = chain(tokens, rank + 1, depth)?;
    let mut rest = Vec::new();
    while let Some(operator) = operator_of(tokens, rank) {
        rest.push((operator, chain(tokens, rank + 1, depth)?));
    }
    match rest.is_empty() {
        true => Some(first),
        false => Some(Operand::Chain(Box::new(first), rest)),
    }
}

/// Takes the next token if it is an operator of this rank.
fn operator_of(tokens: &mut Tokens, rank: u32) -> Option<Operator> {
    let (operator, found) = operator(tokens.peek()?)?;
    if found != rank {
        return None;
    }
    tokens.next();
    Some(operator)
}

/// "unary minus (also repeated)"
fn negated<'a>(tokens: &mut Tokens<'a>, depth: u32) -> Option<Operand<'a>> {
    let mut minuses = 0;
    while tokens.next_if(|token| *token == b"-").is_some() {
        minuses += 1;
    }
    let operand = primary(tokens, depth)?;
    match minuses {
        0 => Some(operand),
        _ => Some(Operand::Negated(minuses, Box::new(operand))),
    }
}

/// A literal, a name, or an operand in parentheses.
fn primary<'a>(tokens: &mut Tokens<'a>, depth: u32) -> Option<Operand<'a>> {
    let token = tokens.next()?;
    if token == b"(" {
        if depth == DEPTH {
            return None;
        }
        let inner = chain(tokens, LOOSEST, depth + 1)?;
        tokens.next_if(|token| *token == b")")?;
        return Some(inner);
    }
    if is_name(token) {
        return Some(Operand::Name(token));
    }
    literal(token).map(Operand::Literal)
}

impl Operand<'_> {
    /// The value; None if a name in it is unknown.
    pub fn value(&self, names: &Names) -> Option<u16> {
        match self {
            Operand::Literal(value) => Some(*value),
            Operand::Name(name) => names.address(name),
            Operand::Negated(minuses, operand) => {
                let value = operand.value(names)?;
                match minuses % 2 {
                    0 => Some(value),
                    _ => Some(modulo16(-unsigned(value))),
                }
            }
            // "Equal ranks go left to right"
            Operand::Chain(first, rest) => {
                let mut value = first.value(names)?;
                for (operator, right) in rest {
                    value = apply(*operator, value, right.value(names)?);
                }
                Some(value)
            }
        }
    }
}

/// "Every operator works modulo 65,536, and a shift of 16 or more gives 0."
fn apply(operator: Operator, left: u16, right: u16) -> u16 {
    let (x, y) = (unsigned(left), unsigned(right));
    match operator {
        Operator::Times => modulo16(x * y),
        Operator::Plus => modulo16(x + y),
        Operator::Minus => modulo16(x - y),
        Operator::Shift if right >= 16 => 0,
        Operator::Shift => modulo16(x * 2_i64.pow(u32::from(right))),
        Operator::And => left & right,
        Operator::Or => left | right,
    }
}
