//! The printed lines of `panelrun`.

use crate::board::{bytes_of, file};
use reference::report::{lines, text};

/// A file of these program words and no data.
fn trim(words: &[u16]) -> Vec<u8> {
    let bytes = bytes_of(words);
    let end = 16 + bytes.len() as u32;
    file(words.len() as u32, 16, 0, end, &bytes)
}

#[test]
fn the_example_file() {
    let example = file(4, 16, 0, 24, &bytes_of(&[0x9AF6, 0x9B3A, 0xAB03, 0xF000]));
    assert_eq!(
        text(&example),
        "run 1 3 1\n\
         out 2 3 3AF6\n\
         pc 0006\n\
         r 0000 0000 0000 0000 0000 3AF6 0000 0000\n"
    );
}

#[test]
fn a_refusal_prints_one_line() {
    assert_eq!(lines(&[]), ["refused 2"]);
    assert_eq!(lines(&[0; 15]), ["refused 2"]);
    assert_eq!(lines(&file(32_769, 16, 0, 16, &[])), ["refused 3"]);
    assert_eq!(lines(&file(0, 15, 0, 16, &[])), ["refused 4"]);
    assert_eq!(text(&[]), "refused 2\n");
}

#[test]
fn refusal_8_comes_before_the_load() {
    // 65,536 bytes of ones: W over its limit. One byte more: 8.
    assert_eq!(lines(&vec![0xFF; 65_536]), ["refused 3"]);
    assert_eq!(lines(&vec![0xFF; 65_537]), ["refused 8"]);
    let mut good = trim(&[0xF000]);
    good.resize(65_536, 0);
    assert_eq!(lines(&good)[0], "run 1 0 0");
    good.push(0);
    assert_eq!(lines(&good), ["refused 8"]);
}

#[test]
fn a_zero_divisor_is_stop_3() {
    // MOVI R1,-6; OUT 1,R1; DIV R2,R1,R0
    assert_eq!(
        lines(&trim(&[0x92FA, 0xA301, 0xB214])),
        [
            "run 3 2 1",
            "out 1 1 FFFA",
            "pc 0004",
            "r 0000 FFFA 0000 0000 0000 0000 0000 0000"
        ]
    );
}

#[test]
fn the_budget_is_1_000() {
    // No program: every word is 0, AND R0,R0,R0.
    assert_eq!(
        lines(&trim(&[])),
        [
            "run 0 1000 0",
            "pc 07D0",
            "r 0000 0000 0000 0000 0000 0000 0000 0000"
        ]
    );
}

#[test]
fn the_log_has_64_places() {
    // ADDI R1,R1,-1; OUT 255,R1; BZ R0,-3
    let printed = lines(&trim(&[0x227F, 0xA3FF, 0x80FD]));
    assert_eq!(printed.len(), 1 + 64 + 2);
    assert_eq!(printed[0], "run 2 193 64");
    assert_eq!(printed[1], "out 1 255 FFFF");
    assert_eq!(printed[64], "out 190 255 FFC0");
    assert_eq!(printed[65], "pc 0002");
    assert_eq!(printed[66], "r 0000 FFBF 0000 0000 0000 0000 0000 0000");
}

#[test]
fn inputs_are_zero_and_data_is_loaded() {
    // IN R1,9; LD R2,0(R0); OUT 0,R2; unassigned
    let mut bytes = bytes_of(&[0xA209, 0x3080, 0xA500, 0xFFFF]);
    bytes.extend([0x0F, 0xA0]);
    assert_eq!(
        lines(&file(4, 16, 2, 24, &bytes)),
        [
            "run 1 3 1",
            "out 2 0 A00F",
            "pc 0006",
            "r 0000 0000 A00F 0000 0000 0000 0000 0000"
        ]
    );
}
