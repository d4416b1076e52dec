//! Texts around 65,536 bytes: every byte of a last line as the 65,536th and
//! the 65,537th.

use super::Texts;
use crate::make::one_of;

/// Last lines. All but the last two are good where they are whole.
const TAILS: [&str; 8] = [
    "z: MOVI R1, 0x1F << 2 + 3 * (4 - 2) & 0x7f\n",
    "z: LD R1, -(5)(R2)\n\n",
    "z:\n.word z\n",
    "z   :   .word  z  \n  \n",
    "\n\n\nz:ADD R1,R2,R3\n",
    "z: .word 1234567890\nab: .word ab",
    "z: OUT 255, R7\n?\n",
    "z: BZ R0, z\nz: .word no\nMOVI R1, 300\n",
];

/// First lines, mostly good ones.
const FIRST: [&str; 6] = [
    ".word 1\n",
    ".word 1\n",
    "NOT R1, R1\n",
    "\n",
    ".word z\n",
    "MOVI R1, 300\n",
];

/// A first line and so many bytes in all: spaces, newlines or lines of words.
fn filler(texts: &mut Texts, length: usize) -> Vec<u8> {
    let first = one_of(&mut texts.random, &FIRST);
    let mut text = first.as_bytes().to_vec();
    let line: &[u8] = one_of(
        &mut texts.random,
        &[b" ", b"\n", b".word 7\n", b"IN R1,1\n"],
    );
    while text.len() + line.len() <= length {
        text.extend(line);
    }
    text.resize(length, b' ');
    // The tail begins a line, or goes on after spaces.
    if texts.random.below(2) == 0 {
        text[length - 1] = b'\n';
    }
    text
}

#[test]
fn every_byte_of_a_last_line_at_the_limit() {
    let mut texts = Texts::new(30);
    for tail in TAILS.map(str::as_bytes) {
        // So many bytes of the tail lie within the limit.
        for within in 0..=tail.len() {
            let filler = filler(&mut texts, 65_536 - within);
            let whole = [&filler[..], tail].concat();
            for length in [65_535, 65_536, 65_537, whole.len()] {
                let end = length.min(whole.len());
                texts.compare(&whole[..end]);
            }
            texts.compare([&whole[..], b"\nz:\nab:\n?"].concat());
        }
    }
    texts.check(1_000, 50, &[0, 10, 11, 12]);
}

#[test]
fn any_byte_at_the_limit() {
    let mut texts = Texts::new(31);
    let last_lines = ["", ".word 1", ".word ", ".word a", "a", "z:"];
    for byte in 0..=255_u8 {
        // As the 65,536th byte, the last.
        for last in last_lines {
            let mut text = filler(&mut texts, 65_535 - last.len());
            text.extend(last.as_bytes());
            text.push(byte);
            texts.compare(text);
        }
        // As the 65,537th.
        let last = one_of(&mut texts.random, &last_lines);
        let mut text = filler(&mut texts, 65_536 - last.len());
        text.extend(last.as_bytes());
        text.push(byte);
        texts.compare(text);
    }
    texts.check(1_792, 5, &[0, 10, 11, 12]);
}
