//! Every statement, and what is nearly one.

use super::vocabulary::{statement, tokens, SHAPES};
use super::{sort, Sort};

pub fn sorts() -> Vec<Sort> {
    vec![
        sort(0, "every statement in one text", spaced()),
        sort(0, "every register in every place", registers()),
        sort(10, "a token taken out", token_missing()),
        sort(10, "no such statement", WRONG_SHAPE),
        sort(10, "no such mnemonic or register", WRONG_WORD),
    ]
}

/// All statements as 004 has them, with as few spaces as may be, and with many.
fn spaced() -> [String; 3] {
    let all = |registers: [u64; 3], of: fn(Vec<String>) -> String| {
        let line = |shape| of(tokens(shape, registers, "4"));
        SHAPES.map(line).join("\n")
    };
    [
        SHAPES
            .map(|shape| statement(shape, [6, 5, 4], "4"))
            .join("\n"),
        all([1, 2, 3], |x| format!("{} {}", x[0], x[1..].concat())),
        all([7, 0, 2], |x| format!("  {} ", x.join("   "))),
    ]
}

/// Each statement on eight lines; those with the same parts are one text. A
/// branch's target is in its reach.
fn registers() -> Vec<String> {
    SHAPES
        .chunk_by(|x, y| x.1 == y.1)
        .map(|alike| alike.iter().map(|&shape| eight(shape)).collect())
        .collect()
}

fn eight(shape: (&str, &str)) -> String {
    let line = |k: u64| {
        let registers = [k, (k + 3) % 8, (k + 5) % 8];
        statement(shape, registers, &(2 * k).to_string()) + "\n"
    };
    (0..8).map(line).collect()
}

/// Some statements without each of their tokens.
fn token_missing() -> Vec<String> {
    let mut texts = Vec::new();
    for mnemonic in ["LD", "ST", "OUT", "GETIID", ".word"] {
        for shape in SHAPES.into_iter().filter(|shape| shape.0 == mnemonic) {
            let whole = tokens(shape, [1, 2, 3], "4");
            for at in 0..whole.len() {
                let mut tokens = whole.clone();
                tokens.remove(at);
                texts.push(tokens.join(" "));
            }
        }
    }
    texts
}

const WRONG_SHAPE: [&str; 20] = [
    "ADD R1, R2, R3, R4",
    "ADD R1, R2, 5",
    "NOT R1, R2, R3",
    "ADDI R1, R2, R3",
    "LD R1, R2",
    "LD R1, 4((R2))",
    "LD R1, 4(R2) + 1",
    "LDB R1, 4(a)",
    "BNZ 4, R1",
    "MOVHI R1 5",
    "OUT R1, 4",
    "MUL R1, R2",
    "MULH R1, R2, 4",
    "DIV R1, R2, R3, R4",
    "EI R1",
    "DI 0",
    "RETI, RETI",
    "GETIID 1",
    "GETIID R1, R2",
    ".word 1 .word 2",
];

const WRONG_WORD: [&str; 17] = [
    "add R1, R2, R3",
    "CMPL R1, R2, R3",
    "MOVIR1, 5",
    "MULU R1, R2, R3",
    "DIVH R1, R2, R3",
    "Mulhu R1, R2, R3",
    "DIVUR1, R2, R3",
    "Ei",
    "RET",
    "GETIIDR1",
    "GETIID R8",
    ".WORD 1",
    ".word1",
    "..word 1",
    "ADD R1, R2, R8",
    "ADD R1, R2, R 3",
    "a:\nNOT R1, a",
];
