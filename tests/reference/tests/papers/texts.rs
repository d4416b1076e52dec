//! `conformance_texts` of docs/CONFORMANCE.md: how its input is divided, what it
//! prints, and that the file of texts holds what it is for.

use reference::assemble::{assemble, Refused};
use reference::conformance::texts::{input, lines, sorts, split};
use reference::instruction::read;
use std::collections::{BTreeMap, BTreeSet};

/// The program memory "at the start".
fn start() -> Vec<u8> {
    (0..65_536).map(|at| (at % 251) as u8).collect()
}

/// The page's digest of every byte, in 32 bits.
fn digest(program: &[u8]) -> u32 {
    assert_eq!(program.len(), 65_536);
    program.iter().fold(0_u32, |h, &byte| {
        h.wrapping_mul(16_777_619).wrapping_add(u32::from(byte) + 1)
    })
}

#[test]
fn a_byte_0_ends_a_text() {
    let divided: [(&[u8], &[&[u8]]); 8] = [
        (b"", &[]),
        (b"a", &[]),
        (b"\0", &[b""]),
        (b"\0\0", &[b"", b""]),
        (b"a\0", &[b"a"]),
        (b"a\0b", &[b"a"]),
        (b"a\n\nb\n\0c\0\0d\0", &[b"a\n\nb\n", b"c", b"", b"d"]),
        (b"\n\0 \0\n", &[b"\n", b" "]),
    ];
    for (input, texts) in divided {
        assert_eq!(split(input), texts, "{}", input.escape_ascii());
        assert_eq!(lines(input).len(), texts.len());
    }
}

#[test]
fn lines_by_hand() {
    let input =
        b"MOVI R1, 1\n\nMOVI R1, 300\n\0.word 0x1234\n.word 5\0\0.word no\0?\0.word 0xFF01\n\0x";
    let mut program = start();
    let first = digest(&program);
    program[..4].copy_from_slice(&[0x34, 0x12, 5, 0]);
    let second = digest(&program);
    // The second word of text 1 stays.
    program[..2].copy_from_slice(&[0x01, 0xFF]);
    let third = digest(&program);
    let expected = [
        format!("text 0 12 3 0 {first}"),
        format!("text 1 0 0 2 {second}"),
        format!("text 2 0 0 0 {second}"),
        format!("text 3 11 1 0 {second}"),
        format!("text 4 10 1 0 {second}"),
        format!("text 5 0 0 1 {third}"),
    ];
    assert_eq!(lines(input), expected);
}

#[test]
fn every_sort_has_its_refusal() {
    for sort in sorts() {
        assert!(!sort.texts.is_empty(), "{}", sort.what);
        for text in &sort.texts {
            let found = match assemble(text, &mut start()) {
                Ok(_) => 0,
                Err(Refused { number, .. }) => number,
            };
            let meant = sort.refusal.unwrap_or(found);
            assert_eq!(found, meant, "{}: {}", sort.what, text.escape_ascii());
        }
    }
}

#[test]
fn the_file_of_texts() {
    let input = input();
    assert!(input.len() <= 65_536, "{} bytes", input.len());
    let texts = split(&input);
    // No text holds a byte 0.
    let made: Vec<Vec<u8>> = sorts().into_iter().flat_map(|sort| sort.texts).collect();
    assert!(texts == made);
    assert!(texts.len() >= 300, "{} texts", texts.len());
    let different: BTreeSet<&[u8]> = texts.iter().copied().collect();
    assert_eq!(different.len(), texts.len());
    // The last bytes are no text, though they could be one.
    assert_ne!(input.last(), Some(&0));
}

#[test]
fn every_refusal_occurs_and_every_word_shows() {
    let mut counts: BTreeMap<String, u64> = BTreeMap::new();
    let mut before = digest(&start()).to_string();
    for (i, line) in lines(&input()).iter().enumerate() {
        let words: Vec<&str> = line.split(' ').collect();
        let [_, number, refusal, at, count, digest] = words[..] else {
            panic!("{line}");
        };
        assert_eq!(number, i.to_string());
        assert_eq!(refusal == "0", at == "0", "{line}");
        assert!(refusal == "0" || count == "0", "{line}");
        // Just a text that gives words changes the memory, and always.
        assert_eq!(count == "0", digest == before, "{line}");
        *counts.entry(refusal.to_string()).or_default() += 1;
        before = digest.to_string();
    }
    assert_eq!(counts.len(), 4);
    for refusal in ["0", "10", "11", "12"] {
        assert!(counts[refusal] >= 25, "{counts:?}");
    }
}

#[test]
fn every_kind_is_written() {
    let sorts = sorts();
    let every = sorts
        .iter()
        .find(|sort| sort.what.starts_with("every statement"));
    for text in &every.unwrap().texts {
        let mut program = start();
        assert_eq!(assemble(text, &mut program), Ok(35));
        for (kind, word) in (0..34).zip(program.chunks(2)) {
            let found = read(u16::from_le_bytes([word[0], word[1]])).unwrap();
            assert_eq!(found.kind.number(), kind);
        }
    }
}
