//! Trim files made from texts, and the line printed for a refusal.

use crate::board::{bytes_of, file};
use reference::assemble::{refused_line, trim, Refused};
use reference::report;

#[test]
fn the_example_of_the_printed_run_as_text() {
    let text = "MOVI R5, 0xF6\nMOVHI R5, 0x3A\nOUT 3, R5\n.word 0xF000\n";
    let example = file(4, 16, 0, 24, &bytes_of(&[0x9AF6, 0x9B3A, 0xAB03, 0xF000]));
    let trim = trim(text.as_bytes()).unwrap();
    assert_eq!(trim, example);
    assert_eq!(report::lines(&trim)[..2], ["run 1 3 1", "out 2 3 3AF6"]);
}

#[test]
fn trailing_zero_words_are_dropped() {
    let zero = file(0, 16, 0, 16, &[]);
    assert_eq!(trim(b""), Ok(zero.clone()));
    assert_eq!(trim(b".word 0\nAND R0, R0, R0"), Ok(zero));
    assert_eq!(
        trim(b".word 0\n.word 1\n.word 0"),
        Ok(file(2, 16, 0, 20, &[0, 0, 1, 0]))
    );
}

#[test]
fn the_greatest_trim() {
    // 8,192 lines of 8 bytes: 16,384 bytes of words.
    let trim = trim(".word 5\n".repeat(8_192).as_bytes()).unwrap();
    assert_eq!(trim.len(), 16_400);
    assert_eq!(trim[..4], [0, 0x20, 0, 0]);
}

#[test]
fn the_line_printed_for_a_refusal() {
    let line = |text: &str| trim(text.as_bytes()).map_err(refused_line);
    let refused = |reason: &str| Err(reason.to_string());
    assert_eq!(
        line("\n\n\n\n\n\n.word no"),
        refused("line 7: refused 11, a name unknown or given before")
    );
    assert_eq!(
        line(".word 1\nMOVI R1, 300\n"),
        refused("line 2: refused 12, a value its field can't hold")
    );
    assert_eq!(
        line("MOVI R1 300\n"),
        refused("line 1: refused 10, outside the grammar or past a stated size")
    );
    assert_eq!(
        refused_line(Refused { line: 0, number: 1 }),
        "line 0: refused 1, the program memory is not 65,536 bytes"
    );
}
