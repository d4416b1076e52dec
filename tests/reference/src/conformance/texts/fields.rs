//! Every field at both edges and one past, and branches at their limits.

use super::vocabulary::{filler, statement, SHAPES};
use super::{sort, Sort};

/// Operands by the field: those that it holds, and those that it can't.
const FIELDS: [(char, &[&str], &[&str]); 4] = [
    (
        's',
        &["-32", "31", "0", "-1", "65504", "65535", "0xFFE0", "65567"],
        &["32", "-33"],
    ),
    (
        'm',
        &["-128", "127", "128", "255", "65408", "65535", "65791"],
        &["256", "-129", "0x8000"],
    ),
    ('u', &["0", "127", "128", "255", "65791"], &["256", "-1"]),
    ('w', &["0", "-1", "65535", "65536", "-65535", "0x8000"], &[]),
];

pub fn sorts() -> Vec<Sort> {
    vec![
        sort(0, "fields at their edges", held()),
        sort(12, "fields past their edges", not_held()),
        sort(12, "fields far past their edges", FAR),
        sort(0, "branches to numbers", ["BZ", "BNZ"].map(targets)),
        sort(0, "branches at their limits", limits(127)),
        sort(12, "branches one past their limits", limits(128)),
        sort(12, "branches one past, by numbers", PAST),
        sort(12, "odd distances", ODD),
    ]
}

/// Statements with a field of this sort.
fn with_field(field: char) -> impl Iterator<Item = (&'static str, &'static str)> {
    SHAPES
        .into_iter()
        .filter(move |(_, parts)| parts.contains(field))
}

/// For each statement one text of all operands.
fn held() -> Vec<String> {
    let mut texts = Vec::new();
    for (field, operands, _) in FIELDS {
        for shape in with_field(field) {
            let line = |operand: &&str| statement(shape, [5, 2, 7], operand) + "\n";
            texts.push(operands.iter().map(line).collect());
        }
    }
    texts
}

/// For each statement a text for each operand.
fn not_held() -> Vec<String> {
    let mut texts = Vec::new();
    for (field, _, operands) in FIELDS {
        for shape in with_field(field) {
            let text = |operand: &&str| statement(shape, [5, 2, 7], operand);
            texts.extend(operands.iter().map(text));
        }
    }
    texts
}

const FAR: [&str; 3] = ["LD R1, 63(R2)", "STB 0x8000(R1), R2", "OUT 65535, R1"];

/// Branches over n words, each with its target as it is and modulo 65,536.
fn targets(mnemonic: &str) -> String {
    let mut text = String::new();
    let all = [0, 1, -1, -2, 64, 126, 127, -127, -128];
    for (k, n) in (0..).zip(all.iter().flat_map(|n| [n, n])) {
        let target: i64 = 2 * k + 2 + 2 * n;
        let target = match k % 2 {
            0 => target,
            _ => target.rem_euclid(65_536),
        };
        text += &format!("{mnemonic} R{}, {target}\n", k % 8);
    }
    text
}

/// Forward and backward over so many words, 127 being the most.
fn limits(words: usize) -> Vec<String> {
    let filler = filler(words);
    ["BZ R1", "BNZ R6"]
        .iter()
        .flat_map(|branch| {
            [
                format!("{branch}, t\n{filler}t:"),
                format!("t:\n{filler}{branch}, t\n"),
            ]
        })
        .collect()
}

/// At address 0, where 256 and -254 are the farthest.
const PAST: [&str; 4] = [
    "BZ R1, 258",
    "BNZ R1, -256",
    "BNZ R1, 32770",
    "BZ R1, 32768",
];

const ODD: [&str; 6] = [
    "BZ R1, 1",
    "BZ R1, 257",
    "BNZ R1, -255",
    "BZ R1, 65535",
    "t: BNZ R1, t + 1",
    "BZ R1, t - 1\nt:",
];
