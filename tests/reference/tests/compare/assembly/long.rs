//! Long operands, long tokens and long lists of lines.

use super::Texts;
use crate::make::one_of;
use crate::texts::{literal, long_from_grammar};

/// The text and a few that end elsewhere.
fn compare_around(texts: &mut Texts, text: &str) {
    texts.compare(text);
    for (end, _) in text.char_indices().rev().take(3) {
        texts.compare(&text[..end]);
    }
    for more in ["1", "no", "+no", "-", ")", "\n", " ?"] {
        texts.compare(format!("{text}{more}"));
    }
}

#[test]
fn many_minuses() {
    let mut texts = Texts::new(40);
    for count in [65_527, 65_528, 65_529, 65_530, 40_001] {
        compare_around(&mut texts, &format!(".word {}1", "-".repeat(count)));
        compare_around(&mut texts, &format!(".word 5{}1", " -".repeat(count / 2)));
    }
    texts.check(100, 2, &[0, 10, 11]);
}

#[test]
fn long_chains_of_operators() {
    let mut texts = Texts::new(41);
    for operator in ["*", "+", "-", "<<", "&", "|", "*-", "--", "+(2)*"] {
        for operand in ["1", "3", "0"] {
            let term = format!("{operator}{operand}");
            let count = 32_000.min(65_000 / term.len());
            compare_around(&mut texts, &format!(".word 7{}", term.repeat(count)));
        }
    }
    for _ in 0..30 {
        let mut text = format!(".word {}", literal(&mut texts.random));
        while text.len() < 65_450 {
            let operator = one_of(
                &mut texts.random,
                &["*", "+", "-", "<<", "&", "|", "-", "+"],
            );
            text += operator;
            text += &literal(&mut texts.random);
        }
        compare_around(&mut texts, &text);
    }
    texts.check(500, 20, &[0, 10, 11]);
}

#[test]
fn long_tokens() {
    let mut texts = Texts::new(42);
    for digit in ["0", "1", "7", "9", "12345"] {
        let digits = digit.repeat(65_000 / digit.len());
        compare_around(&mut texts, &format!(".word {digits}"));
        compare_around(&mut texts, &format!(".word 0x{digits}"));
        compare_around(&mut texts, &format!(".word {digits}a"));
        compare_around(&mut texts, &format!("{digits}:"));
    }
    for letter in ["a", "F", "R"] {
        let letters = letter.repeat(65_000);
        for text in [".word 0x", ".word ", "", ".", "a: "] {
            compare_around(&mut texts, &format!("{text}{letters}"));
        }
    }
    texts.check(300, 30, &[0, 10]);
}

#[test]
fn many_parentheses() {
    let mut texts = Texts::new(43);
    for depth in [1, 15, 16, 17] {
        let term = format!("{}1{}", "(".repeat(depth), ")".repeat(depth));
        let terms = vec![&term[..]; 65_000 / (term.len() + 1)].join("+");
        compare_around(&mut texts, &format!(".word {terms}"));
    }
    compare_around(&mut texts, &format!(".word {}", "(".repeat(65_000)));
    compare_around(&mut texts, &format!(".word {}", "-(".repeat(32_000)));
    compare_around(&mut texts, &format!(".word 1{}", ")".repeat(65_000)));
    texts.check(60, 5, &[0, 10]);
}

#[test]
fn one_byte_over_and_over() {
    let mut texts = Texts::new(44);
    for byte in 0..=255_u8 {
        texts.compare(vec![byte; 65_536]);
        texts.compare(vec![byte; 65_537]);
    }
    for line in [
        "a:\n",
        "\n ",
        "?\n",
        ".word 1\n",
        ".word a\n",
        ".word -\n",
        "NOT R1,R1\n",
        "a:",
    ] {
        compare_around(&mut texts, &line.repeat(65_536 / line.len()));
    }
    texts.check(512, 2, &[0, 10, 11]);
}

#[test]
fn the_last_64_lines_give_names_used_before() {
    let mut texts = Texts::new(45);
    for line in [".word 7\n", "\n", "    \n"] {
        let uses: String = (0..64).map(|k| format!(".word n{k}\n")).collect();
        let gives: String = (0..64).map(|k| format!("n{k}: .word 7\n")).collect();
        let room = 65_536 - uses.len() - gives.len();
        let middle = line.repeat(room / line.len());
        texts.compare(format!("{uses}{middle}{gives}"));
        texts.compare(format!("{middle}{uses}{gives}"));
        texts.compare(format!("{gives}{middle}{uses}"));
        texts.compare(format!("{uses}{middle}{gives}{}", " ".repeat(40)));
    }
    texts.check(12, 9, &[0]);
}

#[test]
fn long_texts_from_the_grammar() {
    let mut texts = Texts::new(46);
    for case in 0..60 {
        let text = long_from_grammar(&mut texts.random, [0, 0, 2_000][case % 3]);
        // Cut after its last whole line, or at the limit and beyond.
        let newline = |&byte: &u8| byte == b'\n';
        let whole = text[..65_536].iter().rposition(newline).unwrap_or(0);
        for end in [whole, 65_536, 65_537, text.len()] {
            texts.compare(&text[..end.min(text.len())]);
        }
    }
    texts.check(240, 20, &[0, 10]);
}
