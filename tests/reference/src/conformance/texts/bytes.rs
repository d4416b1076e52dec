//! Bytes that no rule takes.

use super::{sort, Sort};

/// Marks that L2 has no rule for, a tab, and bytes that are no mark in ASCII.
const BYTES: &[u8] = b"\"#$'/;=>?@[^_~\t\r\x01\x7f\x80\xff";

pub fn sorts() -> Vec<Sort> {
    let places = (0..).zip(BYTES).map(|(k, &byte)| with_byte(k, byte));
    vec![
        sort(10, "a byte outside the grammar", places),
        sort(10, "bytes outside the grammar", OTHERS),
    ]
}

/// The byte behind, before or inside a good line, in turn.
fn with_byte(k: usize, byte: u8) -> Vec<u8> {
    let (before, after): (&[u8], &[u8]) = match k % 4 {
        0 => (b".word 1", b""),
        1 => (b"", b".word 1"),
        2 => (b".word", b"1\n"),
        _ => (b"a:\n.word a", b"+1\n.word 1"),
    };
    [before, &[byte], after].concat()
}

const OTHERS: [&str; 3] = ["\r\n", ".word 1\r\n.word 2\r\n", "caf\u{e9}: .word 1"];
