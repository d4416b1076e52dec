//! The plays of docs/CONFORMANCE.md: their numbers by hand, and that they are
//! lively.

mod backs;
mod boards;
mod keys;
mod knobs;
mod locks;
mod pages;
mod sheets;

use reference::conformance::{file, lines, number, table, table_lines, Digest};
use reference::control::TABLE;

#[test]
fn numbers_by_hand() {
    // t = 97, u = 97, 97 · 73,244,475 mod 2^32 = 2,809,746,779.
    assert_eq!(number(0, 0), 42_873);
    // The rest by a calculator of big numbers.
    assert_eq!(number(0, 1), 41_733);
    assert_eq!(number(1, 0), 50_975);
    assert_eq!(number(63, 5_176), 13_576);
    assert_eq!(number(1_127, 5_048), 52_865);
}

#[test]
fn digests_by_hand() {
    let mut digest = Digest::default();
    assert_eq!(digest.value(), 0);
    digest.take(5);
    assert_eq!(digest.value(), 6);
    digest.take(0);
    assert_eq!(digest.value(), 6 * 16_777_619 + 1);
    digest.take(0xFFFF_FFFF);
    let h: u64 = 6 * 16_777_619 + 1;
    assert_eq!(digest.value(), h * 16_777_619 % (1 << 32));
}

#[test]
fn damage_by_number_2() {
    for c in 0..64 {
        let file = file(c);
        let (w, data) = (1 + number(c, 0) % 200, number(c, 1) % 300);
        let length = 16 + 2 * w + data;
        let damage = number(c, 2) % 16;
        if damage == 0 {
            assert_eq!(file.len() as u64, number(c, 3) % length);
            continue;
        }
        assert_eq!(file.len() as u64, length);
        let header: Vec<u64> = file[..16]
            .chunks(4)
            .map(|x| u64::from(u32::from_le_bytes(x.try_into().unwrap())))
            .collect();
        assert_eq!(header[0], if damage == 1 { w + 32_768 } else { w });
        assert_eq!(header[1], if damage == 2 { 15 } else { 16 });
        assert_eq!(header[2], data);
        assert_eq!(header[3], 16 + 2 * w + u64::from(damage == 3));
    }
}

/// Table t as the paper's with other words at some places.
fn replaced(t: u64, words: &[(usize, u16)]) {
    let mut expected = TABLE;
    for &(place, word) in words {
        expected[place] = word;
    }
    assert_eq!(table(t), expected, "{t}");
}

#[test]
fn tables_by_hand() {
    // number(1_000, 40) mod 32 and number(1_000, 41), and so on.
    replaced(0, &[(22, 55_443)]);
    replaced(4, &[(25, 27_614)]);
    replaced(5, &[(3, 0x700E), (15, 0x4021)]);
    replaced(13, &[(18, 0x40A1), (22, 0x4263)]);
    for t in (8..128).step_by(16) {
        replaced(t, &[(20, 0x4C00)]);
    }
    // Bit 14 of number(1_006, 103) was clear, of number(1_006, 100) set.
    assert_eq!((table(6)[0], table(6)[3]), (53_689, 54_043));
    assert_eq!((table(7)[0], table(7)[31]), (40_425, 11_549));
}

#[test]
fn first_line_by_a_table() {
    let c = 1_000;
    // number(1_000, 2) damages the header alone, here not even that.
    let file = file(c);
    let (program, data) = file[16..].split_at(2 * (1 + number(c, 0) as usize % 200));
    let mut digest = Digest::default();
    (60..68).for_each(|k| digest.take(number(c, k)));
    // PC handed is 1, n is 0.
    digest.take(1);
    digest.take(0);
    for part in [program, data] {
        (0..65_536).for_each(|at| digest.take(part.get(at).copied().unwrap_or(0).into()));
    }
    (400..656).for_each(|k| digest.take(number(c, k)));
    (0..256).for_each(|_| digest.take(0));
    for place in 1_000..1_064 {
        digest.take(place);
        digest.take(0);
    }
    let expected = format!("run control 0 0 5 0 0 0 {}", digest.value());
    assert_eq!(table_lines()[0], expected);
}

/// The digest of the buffer of save s whose first bytes became the file's.
fn destination(s: usize, file: &[u8]) -> u64 {
    let mut digest = Digest::default();
    for j in 0..131_088 {
        let byte = file.get(j).copied().unwrap_or(((j + s) % 253) as u8);
        digest.take(byte.into());
    }
    digest.value()
}

#[test]
fn saves_of_case_1() {
    let lines = lines();
    let [load, save] = ["load 1 ", "save 1 "].map(|start| {
        let at = lines.iter().position(|line| line.starts_with(start));
        at.unwrap()
    });
    // Its calls change neither memory nor log, and neither part of its file
    // ends in zeros.
    let file = file(1);
    let length = file.len();
    let expected = [
        format!("save 1 0 0 {length} {}", destination(0, &file)),
        format!("save 1 1 0 {length} {}", destination(1, &file)),
        lines[load].replace("load", "again"),
        format!("save 1 2 9 0 {}", destination(2, &[])),
        format!("save 1 3 1 0 {}", destination(3, &[])),
    ];
    assert_eq!(lines[save..save + 5], expected);
}

#[test]
fn instructions_by_hand() {
    let lines = lines();
    for (c, i, w, expected) in [
        (21, 0, 0x03AB, "1 3 1 0 5 0 2 32 0 563"), // NOT R5,R1; written with R6
        (21, 15, 0x41B5, "1 15 0 6 0 65525 65 0 0 16821"), // ST -11(R0),R6
        (3, 1, 0x7F27, "1 18 7 0 4 0 128 16 0 32512"), // JALR R4,R7
        (3, 10, 0x9B2E, "1 22 0 0 5 46 32 32 0 39726"), // MOVHI R5,46
        (1, 12, 0xA90A, "1 24 4 0 0 10 16 0 0 43274"), // OUT 10,R4
        (3, 14, 0xD9C2, "0 0 0 0 0 0 0 0 0 4100"), // unassigned; CMPLTU written
        (45, 10, 0xB3BC, "1 28 1 6 7 0 66 128 0 46012"), // DIV R7,R1,R6
        (32, 10, 0xB56E, "0 0 0 0 0 0 0 0 0 28672"), // unassigned; JALR written
        (49, 8, 0xC22B, "1 33 0 0 5 0 0 32 0 49203"), // GETIID R5; written with R6
    ] {
        assert_eq!(number(c, 5_001 + 16 * i), w);
        let line = format!("instruction {c} {i} {expected}");
        assert!(lines.contains(&line), "{line}");
    }
}

/// How many lines begin with these words; `*` is any word.
fn count(lines: &[String], words: &str) -> usize {
    let alike = |line: &&String| {
        words
            .split(' ')
            .zip(line.split(' '))
            .all(|(word, found)| word == "*" || word == found)
    };
    lines.iter().filter(alike).count()
}

/// Asserts that lines begin so, with each of the endings.
fn occur(lines: &[String], start: &str, endings: &[&str]) {
    for ending in endings {
        let words = format!("{start} {ending}");
        assert!(count(lines, &words) > 0, "no {words}");
    }
}

/// Refusals, and stop reasons of accepted runs.
const OF_RUNS: [&str; 8] = ["1", "5", "6", "0 0", "0 1", "0 2", "0 3", "0 4"];

#[test]
fn every_refusal_and_stop_reason_occurs() {
    let lines = lines();
    assert_eq!(count(&lines, "load"), 64 + 16 + 9 + 8 + 9);
    occur(&lines, "load *", &["0", "1", "2", "3", "4", "15", "18"]);
    occur(&lines, "set * *", &["0", "1"]);
    occur(&lines, "run rules * *", &OF_RUNS);
    occur(&lines, "run table * *", &OF_RUNS);
    occur(&lines, "run host * *", &OF_RUNS);
    let windows = count(&lines, "window");
    assert!((1..windows).contains(&count(&lines, "window * * 0 0 0")));
    for assigned in ["1", "0"] {
        let start = format!("instruction * * {assigned} * * * * * * *");
        occur(&lines, &start, &["0", "7"]);
    }
    // By s, in every case whose load was accepted, but for those of keys, the six
    // long files and those of knobs.
    let accepted = count(&lines, "load * 0") - 16 - 2 - 8 - 1;
    assert_eq!(count(&lines, "save"), 4 * accepted);
    for ending in ["0 0", "1 0", "2 9 0", "3 1 0"] {
        assert_eq!(count(&lines, &format!("save * {ending}")), accepted);
    }
    assert_eq!(count(&lines, "again"), accepted);
    assert_eq!(count(&lines, "again * 0"), accepted);
    occur(
        &lines,
        "journal rules * *",
        &["1", "5", "0 0", "0 1", "0 3"],
    );
    occur(
        &lines,
        "journal table * *",
        &["1", "5", "0 0", "0 1", "0 3"],
    );
    occur(&lines, "back * *", &["0", "1", "5", "14"]);
    occur(&lines, "refused", &["2", "3", "4", "8"]);
    occur(&lines, "run", &["0", "1", "2", "3"]);
}

#[test]
fn every_refusal_and_stop_reason_of_a_run_occurs_by_any_table() {
    let lines = table_lines();
    assert_eq!(count(&lines, "run control"), 4 * 192);
    assert_eq!(count(&lines, "lines"), 4 * 32);
    assert_eq!(lines.len(), 4 * 192 + 4 * 32);
    occur(&lines, "run control * *", &OF_RUNS);
    // Table 88 has OUT's word at IN's place. Its program: LD, SHA, STB, SHA, LD,
    // IN, unassigned. The log lent has three places.
    occur(&lines, "run control 88", &["0 0 1 6 1"]);
}

#[test]
fn pc_moves_on_after_a_zero_divisor() {
    // Case 38's program: DIVU R3,R5,R2, two ADDI, MOVI, CMPLTU, ADD, unassigned.
    let lines = lines();
    assert_eq!(file(38)[16..18], [0x9D, 0xBA]);
    occur(&lines, "run rules 38 1", &["0 3 0 0"]);
    occur(&lines, "run table 38 3", &["0 1 5 0"]);
    occur(&lines, "run table 38 5", &["0 1 0 0"]);
}

/// Asserts that runs which stop with 2 have filled the log lent, the first
/// number(c, q + 2) mod `modulus` places; c is `first` plus the number printed.
fn log_full_at_stop_2(lines: &[String], engine: &str, first: u64, modulus: u64) {
    for line in lines {
        let words: Vec<&str> = line.split(' ').collect();
        if words[..2] == ["run", engine] && words[5] == "2" {
            let [c, i, entries] = [2, 3, 7].map(|k| words[k].parse::<u64>().unwrap());
            let places = number(first + c, 5_002 + 16 * i) % modulus;
            assert_eq!(entries, places, "{line}");
        }
    }
}

#[test]
fn logs_lent() {
    let lines = lines();
    log_full_at_stop_2(&lines, "rules", 0, 40);
    log_full_at_stop_2(&lines, "table", 0, 40);
    log_full_at_stop_2(&lines, "host", 0, 2);
    log_full_at_stop_2(&table_lines(), "control", 1_000, 8);
}
