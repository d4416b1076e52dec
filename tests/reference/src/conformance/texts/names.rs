//! Names: given, given again, unknown, how long and how many.

use super::{sort, Sort};

pub fn sorts() -> Vec<Sort> {
    vec![
        sort(0, "names given and used", GOOD),
        sort(0, "64 names", [many(64), used_before(63)]),
        sort(10, "65 names", [many(65), many(64) + "\nz:.word 1"]),
        sort(11, "a 65th name is not given", [used_before(64)]),
        sort(11, "a 65th name that is given before", [many(64) + "\naA:"]),
        sort(10, "no name is given so", WRONG),
        sort(11, "a name unknown", UNKNOWN),
        sort(11, "a name given before", AGAIN),
    ]
}

const GOOD: [&str; 13] = [
    ".word a\n.word b-a\na: .word b\nb:",
    "a:\n\n  b :\nc:.word a+b+c\nd:",
    " a : .word b\n  \nb:\n",
    "ADD: ADD R1, R2, R3\nMOVI: MOVI R1, ADD\nBZ R0, MOVI\n.word ADD|MOVI",
    "MUL: MUL R1, R2, R3\nDIVU:\nDIV R1, R2, R3\nMOVI R1, DIVU\n.word MUL-DIVU",
    "word: .word word\nx: .word x\nxFF: .word xFF\nFF: .word FF\nBEEF: .word BEEF",
    "R8: .word R8\nR: .word R\nR00: .word R00\nr0: .word r0\nR10: .word R10\nRR1: .word RR1",
    "a: .word 1\nA: .word 2\n.word a-A\n.word A",
    ".word 1\nabcdefghijklmnop: .word abcdefghijklmnop\n.word abcdefghijklmno9\nabcdefghijklmno9:",
    ".word 5\nZ123456789012345: .word Z12345678901234\nZ12345678901234: .word Z123456789012345",
    ".word ab*3\n.word a+b\na: .word -ab\nb: .word a<<b\nab: .word ab&b|1",
    "LD R1, a(R2)\nST -b(R1), R2\nMOVI R1, b\nb: OUT a+b, R3\na: IN R4, a*2\nADDI R1, R1, a-b",
    "loop: ADDI R1, R1, -1\nBNZ R1, loop\nBZ R1, done\nOUT 1, R1\ndone: BZ R0, done\nBNZ R0, loop",
];

/// Short names, many of them alike in one letter.
fn name(k: u8) -> String {
    [b'a' + k / 8, b'A' + k % 8]
        .map(char::from)
        .iter()
        .collect()
}

/// So many lines that give a name, every eighth with a word.
fn many(count: u8) -> String {
    let line = |k| match k % 8 {
        3 => format!("{0}:.word {0}", name(k)),
        _ => format!("{}:", name(k)),
    };
    (0..count).map(line).collect::<Vec<_>>().join("\n")
}

/// Name k used, then all to it given.
fn used_before(k: u8) -> String {
    format!(".word {}\n{}", name(k), many(k + 1))
}

const WRONG: [&str; 8] = [
    "abcdefghijklmnopq: .word 1",
    "abcdefghijklmnop: .word 1\n.word abcdefghijklmnopq",
    "1a: .word 1",
    ".word: .word 1",
    "a: b: .word 1",
    ": .word 1",
    "a",
    ".word 1 a:",
];

const UNKNOWN: [&str; 7] = [
    ".word no",
    "OUT no, R1",
    "ST -no(R1), R2",
    ".word 1<<(2+-no)",
    "No: .word no",
    "a: .word 1\n\n.word ab",
    ".word abcdefghijklmnop\nabcdefghijklmno:",
];

const AGAIN: [&str; 6] = [
    "a:\na:",
    "a: .word 1\n\na: .word 1\na:",
    "a:\nb:\nc:\nb: .word b",
    "ADD:\nNOT R1, R2\nADD: ADD R1, R2, R3",
    // By the later one the first line would have 12.
    "MOVI R0, a+253\na: .word 1\na: .word 2",
    "MOVI R0, 4-a-128\n.word 1\na:\n.word 1\na:",
];
