//! What `panellist` prints: lines and refusals by hand, that what it prints
//! assembles to the words listed, and what the file for the gate holds.

use crate::assembly;
use crate::board::{bytes_of, file};
use crate::random::Random;
use crate::words::{written_back, BY_HAND};
use reference::assemble::word_at;
use reference::instruction::{read, Kind};
use reference::listing::{line, lines, sample};
use reference::report;
use std::collections::BTreeSet;

/// Address and word of a line.
fn address_and_word(line: &str) -> (u16, u16) {
    let hexadecimal = |digits| u16::from_str_radix(digits, 16).unwrap();
    (hexadecimal(&line[..4]), hexadecimal(&line[5..9]))
}

#[test]
fn lines_by_hand() {
    for expected in [
        "0000|1298|CMPLT R3, R1, R2|reads R1 R2|writes R3",
        "001A|0A0C|ADD R1, R5, R0|reads R0 R5|writes R1",
        "0002|0492|XOR R2, R2, R2|reads R2|writes R2",
        "0004|05CB|NOT R1, R2|reads R2|writes R1",
        "0006|24BF|ADDI R2, R2, -1|reads R2|writes R2",
        "0008|347C|LD R1, -4(R2)|reads R2|writes R1",
        "000A|4506|ST 6(R2), R4|reads R2 R4|writes",
        "000C|5FE0|LDB R7, -32(R7)|reads R7|writes R7",
        "000E|6E1F|STB 31(R7), R0|reads R0 R7|writes",
        "0010|727F|JALR R1, R1|reads R1|writes R1",
        "BEEE|9AF6|MOVI R5, -10|reads|writes R5",
        "0014|9B3A|MOVHI R5, 58|reads R5|writes R5",
        "0016|A0FF|IN R0, 255|reads|writes R0",
        "0018|A903|OUT 3, R4|reads R4|writes",
        "001A|B298|MUL R3, R1, R2|reads R1 R2|writes R3",
        "001C|BA01|MULH R0, R5, R0|reads R0 R5|writes R0",
        "001E|B492|MULHU R2, R2, R2|reads R2|writes R2",
        "0020|BFC4|DIV R0, R7, R7|reads R7|writes R0",
        "0022|B1FD|DIVU R7, R0, R7|reads R0 R7|writes R7",
        "0024|B29B|.word 0xB29B|reads|writes",
        "0026|C000|EI|reads|writes",
        "0028|CFF9|DI|reads|writes",
        "002A|C012|RETI|reads|writes",
        "002C|C03B|GETIID R7|reads|writes R7",
        "002E|CFC3|GETIID R0|reads|writes R0",
        "0030|C004|.word 0xC004|reads|writes",
        "001A|129F|.word 0x129F|reads|writes",
        "FFFE|FABC|.word 0xFABC|reads|writes",
    ] {
        let (address, w) = address_and_word(expected);
        assert_eq!(line(address, w), expected.replace('|', "\t"));
    }
}

#[test]
fn a_branch_has_its_target_s_address() {
    for (address, w, text) in [
        (4, 0x85FD, "BNZ R2, 0x0000"),
        (0x0040, 0x8604, "BZ R3, 0x004A"),
        (0x1234, 0x80FF, "BZ R0, 0x1234"),
        // Around address 0, backwards and forwards.
        (0, 0x8E80, "BZ R7, 0xFF02"),
        (0x00FC, 0x8180, "BNZ R0, 0xFFFE"),
        (0x00FE, 0x8180, "BNZ R0, 0x0000"),
        (0xFFFE, 0x8000, "BZ R0, 0x0000"),
        (0xFFFE, 0x8F7F, "BNZ R7, 0x00FE"),
        (0xABCC, 0x8000, "BZ R0, 0xABCE"),
    ] {
        assert_eq!(text_column(&line(address, w)), text, "{address:04X}");
    }
}

/// The column TEXT.
fn text_column(line: &str) -> &str {
    let columns: Vec<&str> = line.split('\t').collect();
    assert_eq!(columns.len(), 5, "{line}");
    columns[2]
}

#[test]
fn a_line_for_each_program_word_of_the_file() {
    assert!(lines(&file(0, 16, 0, 16, &[])).is_empty());
    // Data, then the program from offset 19, then a word in no part.
    let mut rest = vec![0xF0, 0xF1, 0xF2];
    rest.extend(bytes_of(&[0xAB03, 0x0000, 0xF000]));
    let expected = [
        "0000\tAB03\tOUT 3, R5\treads R5\twrites",
        "0002\t0000\tAND R0, R0, R0\treads R0\twrites R0",
    ];
    assert_eq!(lines(&file(2, 19, 3, 16, &rest)), expected);
    // The most words that a file of 65,536 bytes can have.
    let full = file(32_760, 16, 65_520, 16, &[0xFF; 65_520]);
    let listed = lines(&full);
    assert_eq!(listed.len(), 32_760);
    assert_eq!(listed[32_759], "FFEE\tFFFF\t.word 0xFFFF\treads\twrites");
}

#[test]
fn a_refusal_is_printed_as_panelrun_prints_it() {
    for (refused, number) in [
        (vec![], 2),
        (vec![0; 15], 2),
        (file(32_769, 16, 0, 16, &[]), 3),
        (file(0, 16, 65_537, 16, &[]), 3),
        (file(1, 16, 0, 16, &[0]), 4),
        (file(0, 15, 0, 16, &[]), 4),
        // The data part is tested too, though it isn't listed.
        (file(1, 16, 1, 18, &[0, 0]), 4),
        (vec![0xFF; 65_536], 3),
        (vec![0xFF; 65_537], 8),
    ] {
        let expected = [format!("refused {number}")];
        assert_eq!(lines(&refused), expected);
        assert_eq!(report::lines(&refused), expected);
    }
}

#[test]
fn every_text_reads_as_its_word_at_its_address() {
    let mut random = Random::new(0x7E87);
    for w in 0..=0xFFFF {
        let any = random.word() & 0xFFFE;
        for address in [0, 2, 0x00FE, 0x7F80, 0x8000, 0xFF00, 0xFFFE, any] {
            let line = line(address, w);
            let word = word_at(address, text_column(&line).as_bytes());
            assert_eq!(word, Ok(Some(written_back(w))), "{line}");
        }
    }
}

#[test]
fn whole_listings_assemble_to_their_words() {
    let mut all: Vec<u16> = (0..=0xFFFF).collect();
    // So some lists begin with branches backwards, which wrap.
    all.rotate_left(0x80);
    for words in all.chunks(2_048) {
        let listed = lines(&file(2_048, 16, 0, 16, &bytes_of(words)));
        let texts: Vec<&str> = listed.iter().map(|line| text_column(line)).collect();
        let expected: Vec<u16> = words.iter().map(|&w| written_back(w)).collect();
        assert_eq!(assembly::words(texts.join("\n")), expected);
    }
}

/// Address and word of each line of the file for the gate.
fn sampled() -> Vec<(u16, u16)> {
    let listed = lines(&sample());
    listed.iter().map(|line| address_and_word(line)).collect()
}

#[test]
fn the_sample_has_every_kind_with_every_register_and_edge() {
    let mut parts = BTreeSet::new();
    let mut numbers = BTreeSet::new();
    for x in sampled().iter().filter_map(|&(_, w)| read(w)) {
        let kind = x.kind.number();
        parts.extend([(kind, 'a', x.a), (kind, 'b', x.b), (kind, 'd', x.d)]);
        numbers.insert((kind, x.n));
    }
    for (number, &(w, ..)) in (0..).zip(&BY_HAND) {
        let x = read(w).unwrap();
        // `BY_HAND` has no register 0 in a part that is used, and EI, DI and RETI
        // none at all.
        for (part, used) in [('a', x.a), ('b', x.b), ('d', x.d)] {
            for k in 0..if used == 0 { 1 } else { 8 } {
                assert!(parts.contains(&(number, part, k)), "{number} {part} {k}");
            }
        }
        let edges: &[i32] = match x.kind {
            Kind::Addi | Kind::Ld | Kind::St | Kind::Ldb | Kind::Stb => &[-32, -1, 0, 1, 31],
            Kind::Bz | Kind::Bnz | Kind::Movi => &[-128, -1, 0, 1, 127],
            Kind::Movhi | Kind::In | Kind::Out => &[0, 1, 127, 128, 255],
            _ => &[0],
        };
        for &n in edges {
            assert!(numbers.contains(&(number, n)), "{number} {n}");
        }
    }
}

#[test]
fn the_sample_has_ignored_bits_unassigned_words_and_far_branches() {
    let sampled = sampled();
    let count =
        |holds: &dyn Fn(u16, u16) -> bool| sampled.iter().filter(|&&(at, w)| holds(at, w)).count();
    assert!((300..1_000).contains(&sampled.len()));
    // Bits that reading ignores.
    assert!(count(&|_, w| w < 0x1000 && written_back(w) != w) >= 7);
    assert!(count(&|_, w| w >> 12 == 7 && written_back(w) != w) >= 7);
    assert!(count(&|_, w| w >> 12 == 12 && written_back(w) != w) >= 4);
    for (opcode, f) in [
        (1, 2),
        (1, 6),
        (1, 7),
        (11, 3),
        (11, 6),
        (11, 7),
        (12, 4),
        (12, 7),
    ] {
        let found = count(&|_, w| (w >> 12, w & 7) == (opcode, f));
        assert!(found > 0, "{opcode}, {f}");
    }
    for opcode in 12..16 {
        assert!(count(&|_, w| w >> 12 == opcode) > 0, "{opcode}");
    }
    // Branches backwards with and without wrapping, to themselves, forwards.
    let distance = |w: u16| 2 * i32::from(w as u8 as i8) + 2;
    let branch = |w: u16| w >> 12 == 8;
    let wraps = |at: u16, w: u16| i32::from(at) + distance(w) < 0;
    assert!(count(&|at, w| branch(w) && wraps(at, w)) >= 4);
    assert!(count(&|at, w| branch(w) && distance(w) < -250 && !wraps(at, w)) >= 4);
    assert!(count(&|_, w| branch(w) && distance(w) == 0) >= 2);
    assert!(count(&|_, w| branch(w) && distance(w) > 250) >= 2);
    assert_eq!(sampled.last().unwrap().1, 0);
}

#[test]
fn the_sample_s_parts_are_apart_from_its_header() {
    let sample = sample();
    let number = |k: usize| u32::from_le_bytes(sample[4 * k..4 * k + 4].try_into().unwrap());
    let [words, program, bytes, data] = [0, 1, 2, 3].map(number);
    assert!(program > 16 && program % 2 == 1);
    assert!(bytes > 0 && data + bytes < program);
    assert!(program + 2 * words < sample.len() as u32);
}
