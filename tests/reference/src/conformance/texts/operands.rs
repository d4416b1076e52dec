//! Operands: ranks, minuses, parentheses, literals.

use super::vocabulary::{nested, OPERATORS};
use super::{sort, Sort};

pub fn sorts() -> Vec<Sort> {
    vec![
        sort(0, "every two operators", two_operators()),
        sort(0, "operands of many sorts", GOOD.map(listed)),
        sort(0, "spaces in operands", [words(&SPACES)]),
        sort(0, "depth 16", depth(16)),
        sort(10, "depth 17", depth(17)),
        sort(0, "long operands", long()),
        sort(10, "long tokens that are none", long_tokens()),
        sort(10, "no operand", NONE.map(|operand| words(&[operand]))),
        sort(10, "no literal", NO_LITERAL.map(|x| words(&[x]))),
        sort(10, "a register for a name", REGISTERS),
    ]
}

/// A word of each operand.
fn words(operands: &[&str]) -> String {
    let line = |operand: &&str| format!(".word {operand}\n");
    operands.iter().map(line).collect()
}

/// A word of each operand of the list.
fn listed(operands: &str) -> String {
    words(&operands.split("  ").collect::<Vec<_>>())
}

/// Each operator before each, alone, with both ways of grouping, and with
/// minuses; a text for each first operator.
fn two_operators() -> Vec<String> {
    let mut texts = Vec::new();
    for [a, b, c] in [["13", "6", "5"], ["0xFFFF", "4", "17"]] {
        for first in OPERATORS {
            let lines = |second: &str| {
                words(&[
                    &format!("{a}{first}{b}{second}{c}"),
                    &format!("({a}{first}{b}){second}{c}"),
                    &format!("{a}{first}({b}{second}{c})"),
                    &format!("-{a}{first}-{b}{second}-{c}"),
                ])
            };
            texts.push(OPERATORS.map(lines).concat());
        }
    }
    texts
}

/// Operands, two spaces between them.
const GOOD: [&str; 6] = [
    // All ranks, up and down.
    "1|6&3<<4+5*-6  -6*5+4<<3&200|1  -2*3-4+5<<1<<2&0xFF0&0x7F7|1|2  (((1|6)&3)<<4)+5*-6  \
    1|(6&(3<<(4+(5*(-6)))))  100-10-1*2*3-(4-5)",
    // Shifts of less than 16 and of more.
    "3<<0  3<<1  3<<14  3<<15  3<<16  3<<17  3<<32  3<<-1  3<<65536  3<<0x8000  1<<1<<1<<13",
    // Minuses.
    "-1  --1  ---1  - - - -1  1--1  1---1  1- -1  -(-1)  -(--(1))  2*-3  2*--3  -2<<1  -1&255  \
    -32768  -0  5-3  5 -3  5- 3",
    // Modulo 65,536.
    "65535+1  65535+65535  0-1  255*257  256*256  65535*65535  40000*3  0x8000*2  1-65535  \
    65535<<1  99999&65535",
    // Literals.
    "0  00  007  65535  65536  65537  131071  4294967296  4294967297  18446744073709551621  \
    340282366920938463463374607431768211466  0000000000000000000012",
    "0x0  0x00  0xFFFF  0xffff  0xAbCd  0xaBcD  0x10000  0x1FFFF  0x9a  0xA9  \
    0x123456789ABCDEFabcdef0  0x00000000000000000000012",
];

const SPACES: [&str; 7] = [
    "1+2",
    " 1 + 2 ",
    "1   <<   2",
    "( 1 )",
    "(1)",
    "-  1",
    "1&( 2|3 )",
];

/// Parentheses of this depth, also before a base register, which is not the
/// operand's; other parentheses beside them don't count.
fn depth(depth: usize) -> Vec<String> {
    let deep = nested("5", depth);
    vec![
        format!(".word {deep}"),
        format!(".word (1)+((2))*{deep}-{deep}|(3)"),
        format!(".word {}1{}", "-(".repeat(depth), "-1)".repeat(depth)),
        format!("LD R1, {deep}(R2)"),
        format!("MOVI R1, 1+{}", nested("2*(3)", depth - 1)),
    ]
}

fn long() -> Vec<String> {
    let with = |before: &str, part: &str, times: usize, after: &str| {
        words(&[&format!("{before}{}{after}", part.repeat(times))])
    };
    vec![
        with("", "-", 1_000, "7"),
        with("", "-", 1_001, "7"),
        with("5", " -", 333, "1"),
        with("7", "-1", 500, ""),
        with("1", "<<1|1", 150, ""),
        with("", "(1)+", 300, "1"),
        with("", "9876543210", 100, ""),
        with("0x", "0123456789abcdefABCDEF", 40, ""),
        with("1", " ", 700, "+ 1"),
    ]
}

fn long_tokens() -> Vec<String> {
    vec![
        words(&[&("12345".repeat(50) + "a")]),
        words(&[&("0x".to_string() + &"f".repeat(300) + "g")]),
        words(&[&"(".repeat(300)]),
        words(&[&"-".repeat(300)]),
        "b".repeat(300) + ":",
    ]
}

const NONE: [&str; 16] = [
    "+1", "<<1", "1+", "1<<", "1++2", "1 2", "1<2", "1< <2", "1<<<2", "1&&2", "()", "(1", "(1))",
    ")1(", "-", "1:",
];

const NO_LITERAL: [&str; 7] = ["0x", "0X1", "0xg", "12ab", "00x1", "0 x1", "1.5"];

const REGISTERS: [&str; 6] = [
    ".word R1",
    ".word (R7)",
    "BZ R1, R2",
    "LD R1, R2(R3)",
    "R1: .word 1",
    "R7:",
];
