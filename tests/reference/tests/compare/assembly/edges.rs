//! Fields, branches, ranks and depths at their edges.

use super::Texts;
use crate::texts::{literal, nested_operand, SHAPES};

/// The statement with this operand in its field.
fn with_operand(mnemonic: &str, parts: &str, operand: &str) -> String {
    let parts: String = parts
        .chars()
        .map(|part| match part {
            'r' => "R5".to_string(),
            's' | 't' | 'm' | 'u' | 'w' => operand.to_string(),
            mark => mark.to_string(),
        })
        .collect();
    format!("{mnemonic} {parts}")
}

#[test]
fn every_field_with_every_value_near_its_edges() {
    let mut texts = Texts::new(10);
    let near = |edge: i64| edge - 3..=edge + 3;
    let values: Vec<i64> = (-300..=600)
        .chain(near(-32_768))
        .chain(near(32_768))
        .chain(near(65_536))
        .chain(near(65_536 + 256))
        .collect();
    for (mnemonic, parts) in SHAPES {
        if !parts.contains(['s', 't', 'm', 'u', 'w']) {
            continue;
        }
        for &value in &values {
            let modulo = value.rem_euclid(65_536);
            for operand in [
                value.to_string(),
                modulo.to_string(),
                format!("0x{modulo:X}"),
            ] {
                texts.compare(with_operand(mnemonic, parts, &operand));
            }
        }
    }
    texts.check(30_000, 1_000, &[0, 12]);
}

#[test]
fn every_token_in_a_register_s_place() {
    let mut texts = Texts::new(11);
    let tokens = [
        "R0", "R7", "R8", "R9", "r1", "R", "R10", "R01", "1", "(R1)", "", "a", "-R1", "R 1",
    ];
    for (mnemonic, parts) in SHAPES {
        let places = parts.matches('r').count();
        for (place, token) in (0..places).flat_map(|place| tokens.map(|token| (place, token))) {
            let mut text = with_operand(mnemonic, parts, "4");
            let at = text.match_indices("R5").nth(place).map_or(0, |(at, _)| at);
            text.replace_range(at..at + 2, token);
            texts.compare(text);
        }
    }
    texts.check(700, 100, &[0, 10]);
}

#[test]
fn branches_at_their_limits() {
    let mut texts = Texts::new(12);
    for between in (0..8).chain(120..136) {
        for (branch, off) in ["BZ R1, t", "BNZ R7, t"]
            .iter()
            .flat_map(|branch| [-2, -1, 0, 1, 2].map(|off| (branch, off)))
        {
            let filler = ".word 7\n".repeat(between);
            let branch = format!("{branch} + {off}");
            texts.compare(format!("{branch}\n{filler}t:"));
            texts.compare(format!("t: {filler}{branch}"));
            // The other way round the address space.
            texts.compare(format!("{filler}{}", branch.replace('t', "-2")));
        }
    }
    texts.check(600, 100, &[0, 12]);
}

const OPERATORS: [&str; 6] = ["*", "+", "-", "<<", "&", "|"];

/// `.word` with each choice of two operators and minuses between these.
fn two_operators(texts: &mut Texts, [a, b, c]: [&str; 3]) {
    for first in OPERATORS {
        for second in OPERATORS {
            for minuses in 0..8 {
                let minus = |bit: u32| if minuses >> bit & 1 == 1 { "-" } else { "" };
                texts.compare(format!(
                    ".word {}{a}{first}{}{b}{second}{}{c}",
                    minus(0),
                    minus(1),
                    minus(2)
                ));
            }
        }
    }
}

#[test]
fn every_two_operators() {
    let mut texts = Texts::new(13);
    for operands in [
        ["1", "2", "3"],
        ["13", "6", "5"],
        ["0xFFFF", "4", "17"],
        ["7", "(3-1)", "1"],
    ] {
        two_operators(&mut texts, operands);
    }
    for _ in 0..20 {
        let operands = [0; 3].map(|_| literal(&mut texts.random));
        let [a, b, c] = &operands;
        two_operators(&mut texts, [a, b, c]);
    }
    texts.check(6_900, 6_900, &[0]);
}

#[test]
fn every_four_operators() {
    let mut texts = Texts::new(14);
    for number in 0..OPERATORS.len().pow(4) {
        let mut text = ".word 0x1235".to_string();
        for place in 0..4 {
            let operator = OPERATORS[number / OPERATORS.len().pow(place) % OPERATORS.len()];
            let operand = ["3", "6", "2", "9"][place as usize];
            text += &format!(" {operator} {operand}");
        }
        texts.compare(text);
    }
    texts.check(1_296, 1_296, &[0]);
}

#[test]
fn parentheses_to_depth_16_and_beyond() {
    let mut texts = Texts::new(15);
    for _ in 0..200 {
        for depth in [1, 2, 8, 15, 16, 17, 18, 40] {
            let operand = nested_operand(&mut texts.random, depth);
            let word = [b".word ", &operand[..]].concat();
            let load = [b"LD R1, (", &operand[..], b")&15(R2)"].concat();
            // One parenthesis taken out.
            let mut damaged = word.clone();
            if let Some(at) = word.iter().rposition(|&byte| byte == b')') {
                damaged.remove(at);
            }
            for text in [word, load, damaged] {
                texts.compare(text);
            }
        }
    }
    texts.check(4_800, 1_000, &[0, 10]);
}
