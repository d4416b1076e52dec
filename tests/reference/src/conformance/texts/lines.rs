//! Lines: none, empty, the last, and several bad ones.

use super::vocabulary::nested;
use super::{sort, Sort};

pub fn sorts() -> Vec<Sort> {
    let deep = format!("a:\na: MOVI R1, no+{}", nested("300", 17));
    vec![
        sort(0, "no words", EMPTY),
        sort(0, "a last line with a newline or none", LAST),
        sort(0, "many empty lines", ["\n \n".repeat(200) + ".word 5"]),
        sort(10, "a late bad line", ["\n".repeat(700) + "?", line_ten()]),
        sort(10, "the first bad line has 10", first(0)),
        sort(11, "the first bad line has 11", first(1)),
        sort(12, "the first bad line has 12", first(2)),
        sort(10, "10 is lower on one line", LOWEST_10),
        sort(10, "10 is lower on one line", [deep]),
        sort(11, "11 is lower than 12 on one line", LOWEST_11),
        sort(10, "a line with 10 gives no word", NO_WORD),
        sort(12, "lines with 11 or 12 give a word", WORD),
        sort(11, "a line with 10 gives no name", NO_NAME),
        sort(11, "a line with 11 gives its name", NAME_11),
        sort(12, "a line with 12 gives its name", NAME_12),
    ]
}

const EMPTY: [&str; 6] = ["", "\n", " ", "    \n  \n ", "a:", " a : \n\n b:"];

const LAST: [&str; 6] = [
    ".word 0x1234",
    ".word 0x2345\n",
    "\n\n.word 0x3456\n\n",
    ".word 0x4567\n  ",
    ".word 1\nNOT R1, R2\n.word 2",
    "a:.word 0x5678\n\n\nb:",
];

fn line_ten() -> String {
    "NOT R1, R2\n".repeat(9) + "NOT R1\n" + "NOT\n"
}

const BAD: [&str; 3] = [".word 1 +", "BZ R1, no", "IN R1, 256"];

/// Texts whose first bad line is this, the others behind it.
fn first(k: usize) -> Vec<String> {
    let [x, y, z] = [k, (k + 1) % 3, (k + 2) % 3].map(|k| BAD[k]);
    vec![
        format!("{x}\n{y}\n{z}\n"),
        format!("a: .word 1\n\n{x}\nb:\n{z}\n{y}"),
        format!("\n{x}\n{x}\n.word 1\n{y}"),
    ]
}

const LOWEST_10: [&str; 4] = [
    "a:\na: ?",
    "a:\na: MOVI R1, 300 +",
    "MOVI R1, 300 ?",
    "a: .word 1\nb: .word a\na: b: .word 1",
];

const LOWEST_11: [&str; 4] = [
    "MOVI R1, 300+no",
    "a:\na: MOVI R1, 300",
    "a: BZ R1, 1+no",
    "LD R1, 32*(no)(R2)",
];

/// From the second line's word on t would be 4 and the first line have 12.
const NO_WORD: [&str; 3] = [
    "MOVI R0, t+252\n?\nt:",
    "MOVI R0, t+252\nR1: .word 1\nt: .word 2",
    "MOVI R0, t+252\n.word 0x\n\nt:",
];

/// The second line's word makes t 4, so that the first line has 12.
const WORD: [&str; 4] = [
    "MOVI R0, t+252\n.word 1\nt:",
    "MOVI R0, t+252\n.word no\nt:",
    "MOVI R0, t+252\nMOVI R1, 256\nt:",
    "a: MOVI R0, t+252\na: .word 1\nt:",
];

const NO_NAME: [&str; 2] = [".word a\na: a:", ".word a\na: .word 1 2\n.word 1"];

const NAME_11: [&str; 2] = [".word a\na: .word no", "MOVI R0, a+252\na: .word no\na:"];

/// The earlier a is 2 and reaches, the later would not.
const NAME_12: [&str; 2] = [
    ".word a\na: MOVI R1, 300",
    "MOVI R0, a+252\na: MOVI R1, 300\na:",
];
