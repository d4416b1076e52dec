//! Names: how many, how long, given again, not given.

use super::Texts;
use crate::make::one_of;

#[test]
fn around_64_names() {
    let mut texts = Texts::new(20);
    for count in 60..70_u64 {
        for _ in 0..40 {
            let mut lines: Vec<String> = (0..count).map(|k| format!("n{k}:")).collect();
            // Some lines more: names again, names used, a line with 10.
            for _ in 0..texts.random.below(4) {
                let k = texts.random.below(70);
                let line = match texts.random.below(4) {
                    0 => format!("n{k}: .word 1"),
                    1 | 2 => format!(".word n{k}"),
                    _ => format!("n{k}: ?"),
                };
                let at = texts.random.below(lines.len() as u64 + 1) as usize;
                lines.insert(at, line);
            }
            texts.compare(lines.join("\n"));
        }
    }
    texts.check(400, 30, &[0, 10, 11]);
}

#[test]
fn names_of_every_length() {
    let mut texts = Texts::new(21);
    for length in 0..40 {
        for fill in ["a", "Z", "9", "R"] {
            let name = format!("n{}", fill.repeat(length));
            for text in [
                format!("{name}:"),
                format!("{name}: .word {name}+1"),
                format!(".word 1\n{name}: NOT R1, R2\nBZ R1, {name}"),
                format!(".word {name}"),
                format!("MOVI R1, 300+{name}"),
                // Alike but for the last letter.
                format!("{name}: .word 1\n{name}x: .word 2\n.word {name}x-{name}"),
                format!("{name}x: .word 1\n.word {name}y"),
            ] {
                texts.compare(text);
            }
        }
    }
    texts.check(1_100, 100, &[0, 10, 11]);
}

#[test]
fn what_bad_lines_give() {
    // One or two bad lines among good ones; the branch just reaches t or not.
    let mut texts = Texts::new(22);
    let bad = [
        "",
        "?",
        "x: ?",
        "x: .word 1",
        ".word no",
        "x: .word no",
        "MOVI R1, 300",
        "x: MOVI R1, 300",
        "b: .word 1",
        "b: ?",
        "b: MOVI R1, 300",
        "R1: .word 1",
        "t: .word 1",
        "x:",
    ];
    for _ in 0..2_000 {
        let between = 120 + texts.random.below(10) as usize;
        let first = one_of(
            &mut texts.random,
            &["BZ R0, t", "BZ R0, x", "b: BNZ R1, t", ".word x"],
        );
        let mut lines = vec![".word 7"; between];
        for _ in 0..1 + texts.random.below(2) {
            let at = texts.random.below(between as u64) as usize;
            lines[at] = one_of(&mut texts.random, &bad);
        }
        let last = one_of(&mut texts.random, &["t:", "t: .word t", "x:\nt:", "t:\n?"]);
        texts.compare(format!("{first}\n{}\n{last}", lines.join("\n")));
    }
    texts.check(2_000, 50, &[0, 10, 11, 12]);
}
