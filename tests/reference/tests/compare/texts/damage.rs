//! Texts that mostly have no reading.

use super::from_grammar;
use crate::make::one_of;
use crate::random::Random;

/// Bytes that mean something, or nearly so.
const BYTES: &[u8] = b"\n\n  ,,()()+-*<<&|::..xXR0789aAfFgG_\t\r#;/>=\0\x7f\x80\xa0\xff";

/// A good text with a byte changed, put in or taken out, or two exchanged.
pub fn damaged(random: &mut Random) -> Vec<u8> {
    let mut text = from_grammar(random, 12, 0);
    let byte = match random.below(4) {
        0 => random.word() as u8,
        _ => one_of(random, BYTES),
    };
    if text.is_empty() {
        return vec![byte];
    }
    let at = random.below(text.len() as u64) as usize;
    match random.below(5) {
        0 | 1 => text[at] = byte,
        2 => text.insert(at, byte),
        3 => drop(text.remove(at)),
        _ => {
            let last = text.len() - 1;
            text.swap(at, (at + 1).min(last));
        }
    }
    text
}

/// Tokens, and what is nearly one.
const FRAGMENTS: &str =
    "ADD NOT MOVI LD ST BZ OUT JALR ADDI MUL DIVU EI RETI GETIID GETIID .word .word R0 R1 R7 R8 r1 , , , ( ) ( ) \
    - - * + << & | : : 0 1 5 16 65535 65536 0x 0x1 0xg 0X1 12ab a a b word .a . < \t \r \
    abcdefghijklmnop abcdefghijklmnopq";

/// What may be in an operand.
const IN_OPERAND: &str = "1 2 3 15 16 0x1F 65535 a b - - - * + << & | ( ( ) ) R1 12ab , :";

fn one_word(random: &mut Random, words: &str) -> Vec<u8> {
    let words: Vec<&str> = words.split(' ').collect();
    one_of(random, &words).as_bytes().to_vec()
}

/// The text cut into letters and digits in a row, and single bytes.
fn pieces(text: &[u8]) -> Vec<Vec<u8>> {
    let in_row = |byte: &u8| byte.is_ascii_alphanumeric();
    text.chunk_by(|x, y| in_row(x) && in_row(y))
        .map(<[u8]>::to_vec)
        .collect()
}

/// A good text with a few of its tokens taken out, doubled, exchanged or
/// replaced.
pub fn rearranged(random: &mut Random) -> Vec<u8> {
    let mut pieces = pieces(&from_grammar(random, 6, 0));
    for _ in 0..1 + random.below(2) {
        if pieces.is_empty() {
            break;
        }
        let at = random.below(pieces.len() as u64) as usize;
        let other = random.below(pieces.len() as u64) as usize;
        match random.below(6) {
            0 => drop(pieces.remove(at)),
            1 => pieces.insert(at, pieces[at].clone()),
            2 => pieces.swap(at, other),
            3 => pieces[at] = pieces[other].clone(),
            4 => pieces[at] = one_word(random, IN_OPERAND),
            _ => pieces[at] = one_word(random, FRAGMENTS),
        }
    }
    pieces.concat()
}

/// Up to so many of the words, with spaces between some.
fn some_of(random: &mut Random, words: &str, most: u64) -> Vec<u8> {
    let count = random.below(most + 1);
    let mut text = Vec::new();
    for _ in 0..count {
        text.extend(one_word(random, words));
        match random.below(16) {
            0..=4 => text.push(b' '),
            5 => text.push(b'\n'),
            _ => {}
        }
    }
    text
}

/// Tokens, and what is nearly one, in any order.
pub fn fragments(random: &mut Random) -> Vec<u8> {
    some_of(random, FRAGMENTS, 24)
}

/// `.word` and what may be in an operand, in any order; then lines that give
/// the names, or not.
pub fn operand_fragments(random: &mut Random) -> Vec<u8> {
    let operand = some_of(random, IN_OPERAND, 7);
    let end: &[u8] = one_of(random, &[b"", b"\na:", b"\na:\nb:"]);
    [b".word ", &operand[..], end].concat()
}

/// Any bytes, or such as mean something.
pub fn bytes(random: &mut Random) -> Vec<u8> {
    let any = random.below(2) == 0;
    let count = random.below(60);
    (0..count)
        .map(|_| match any {
            true => random.word() as u8,
            false => one_of(random, BYTES),
        })
        .collect()
}
