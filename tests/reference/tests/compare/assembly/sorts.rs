//! Many short texts of each sort.

use super::Texts;
use crate::make::one_of;
use crate::texts::{any, bytes, damaged, fragments, from_grammar, operand_fragments, rearranged};

#[test]
fn good_texts() {
    let mut texts = Texts::new(0);
    for _ in 0..30_000 {
        let text = from_grammar(&mut texts.random, 24, 0);
        texts.compare(text);
    }
    texts.check(30_000, 30_000, &[0]);
}

#[test]
fn texts_with_flaws() {
    let mut texts = Texts::new(1);
    for _ in 0..25_000 {
        let flaws = one_of(&mut texts.random, &[4, 12, 40]);
        let text = from_grammar(&mut texts.random, 24, flaws);
        texts.compare(text);
    }
    texts.check(25_000, 1_000, &[0, 11, 12]);
}

#[test]
fn good_texts_damaged_by_a_byte() {
    let mut texts = Texts::new(2);
    for _ in 0..30_000 {
        let text = damaged(&mut texts.random);
        texts.compare(text);
    }
    texts.check(30_000, 50, &[0, 10, 11, 12]);
}

#[test]
fn good_texts_with_tokens_taken_put_in_or_moved() {
    let mut texts = Texts::new(5);
    for _ in 0..20_000 {
        let text = rearranged(&mut texts.random);
        texts.compare(text);
    }
    texts.check(20_000, 20, &[0, 10, 11, 12]);
}

#[test]
fn tokens_and_bytes_in_any_order() {
    let mut texts = Texts::new(3);
    for _ in 0..10_000 {
        for make in [fragments, operand_fragments, bytes] {
            let text = make(&mut texts.random);
            texts.compare(text);
        }
    }
    texts.check(30_000, 50, &[0, 10, 11]);
}

#[test]
fn programs_of_other_lengths() {
    let mut texts = Texts::new(4);
    for _ in 0..1_000 {
        let text = match texts.random.below(20) {
            0 => vec![b' '; 65_537],
            _ => any(&mut texts.random),
        };
        let length = one_of(&mut texts.random, &[0, 1, 65_535, 65_537]);
        texts.compare_into(text, length);
    }
    texts.check(1_000, 1_000, &[1]);
}
