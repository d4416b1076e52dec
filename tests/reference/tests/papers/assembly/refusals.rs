//! Which line is refused, and with which number.

use super::{filler, refused, words};
use crate::refusals::lengths;
use reference::assemble::{assemble, Refused};

#[test]
fn the_destination_is_tested_first_for_1() {
    let long = " ".repeat(70_000);
    for text in [".word 1", "", "?", ".word no", "MOVI R1, 300", &long] {
        for length in lengths(65_536) {
            if length == 65_536 {
                continue;
            }
            let mut program = vec![0xEE; length];
            let answer = assemble(text.as_bytes(), &mut program);
            assert_eq!(answer, Err(Refused { line: 0, number: 1 }));
            assert!(program.iter().all(|&byte| byte == 0xEE));
        }
    }
}

#[test]
fn lines_are_counted_from_1() {
    assert_eq!(refused("?"), (1, 10));
    assert_eq!(refused("?\n"), (1, 10));
    assert_eq!(refused("\n?"), (2, 10));
    assert_eq!(refused("\n\n  \na:\n.word no"), (5, 11));
    assert_eq!(refused(filler(999) + "MOVI R1, 300"), (1_000, 12));
    assert_eq!(refused(format!("{}?", "\n".repeat(65_535))), (65_536, 10));
}

#[test]
fn number_11_a_name_unknown() {
    for text in [
        ".word no",
        "MOVI R1, no",
        "BZ R1, no",
        "OUT no, R1",
        "LD R1, no(R2)",
        ".word 0*no",
        ".word no-no",
        ".word 1<<(2+-no)",
        "no2: .word no",
    ] {
        assert_eq!(refused(text), (1, 11), "{text}");
    }
}

#[test]
fn number_11_a_name_given_on_an_earlier_line() {
    assert_eq!(refused("a:\na:"), (2, 11));
    assert_eq!(refused("a: .word 1\n\na: .word 1\na:"), (3, 11));
    assert_eq!(refused("a:\nb:\nc:\nb: .word b"), (4, 11));
}

#[test]
fn the_earlier_giving_counts() {
    // From line 1 only the first a is near enough.
    let text = format!("BZ R0, a\na:\n{}a:", filler(200));
    assert_eq!(refused(text), (203, 11));
    let text = format!("BZ R0, a\n{}a:\na:", filler(200));
    assert_eq!(refused(text), (1, 12));
}

#[test]
fn number_12_a_value_its_field_cannot_hold() {
    assert_eq!(refused("MOVI R1, 300"), (1, 12));
    assert_eq!(refused("ADDI R1, R1, 32"), (1, 12));
    assert_eq!(refused("IN R1, -1"), (1, 12));
    assert_eq!(refused("BZ R1, 1"), (1, 12));
}

#[test]
fn the_first_bad_line_wins() {
    let bad = [("?", 10), (".word no", 11), ("MOVI R1, 300", 12)];
    for (first, number) in bad {
        for (second, _) in bad {
            assert_eq!(refused(format!(".word 1\n{first}\n{second}")), (2, number));
        }
    }
}

#[test]
fn then_the_lowest_number() {
    // Each line has every number named, and the lowest is given.
    assert_eq!(refused("MOVI R1, 300 + no"), (1, 11));
    assert_eq!(refused("a:\na: MOVI R1, 300"), (2, 11));
    assert_eq!(refused("a:\na: MOVI R1, 300 + no"), (2, 11));
    assert_eq!(refused("a:\na: ?"), (2, 10));
    assert_eq!(refused("a:\na: MOVI R1, 300 +"), (2, 10));
    assert_eq!(
        refused("a:\na: MOVI R1, no + ((((((((((((((((( 1 )))))))))))))))))"),
        (2, 10)
    );
    assert_eq!(refused("MOVI R1, 300 ?"), (1, 10));
    assert_eq!(refused(".word no no"), (1, 10));
}

/// A branch over 127 words and this line. Its target is as far as it may be, so
/// that one more word is too many.
fn branch_over(line: &str) -> String {
    format!("BZ R0, t\n{}{line}\nt:", filler(127))
}

#[test]
fn a_line_with_10_gives_no_word() {
    assert_eq!(words(branch_over("")).len(), 128);
    assert_eq!(refused(branch_over(".word 1")), (1, 12));
    assert_eq!(refused(branch_over("?")), (129, 10));
    assert_eq!(refused(branch_over(".word 1 ?")), (129, 10));
    assert_eq!(refused(branch_over("R1: .word 1")), (129, 10));
    let deep = format!(".word {}1{}", "(".repeat(17), ")".repeat(17));
    assert_eq!(refused(branch_over(&deep)), (129, 10));
}

#[test]
fn a_line_with_11_or_12_gives_its_word_s_place() {
    assert_eq!(refused(branch_over(".word no")), (1, 12));
    assert_eq!(refused(branch_over("MOVI R1, 300")), (1, 12));
    // A repeated name.
    let again = format!("b: {}", branch_over("b: .word 1"));
    assert_eq!(refused(again), (1, 12));
    // One word nearer, the line itself is the first bad one.
    let nearer = |line| branch_over(line).replacen(".word 7\n", "\n", 1);
    assert_eq!(refused(nearer(".word no")), (129, 11));
    assert_eq!(refused(nearer("MOVI R1, 300")), (129, 12));
}

#[test]
fn a_line_with_10_gives_no_name() {
    assert_eq!(refused(".word a\na: ?"), (1, 11));
    assert_eq!(refused(".word a\na: a:"), (1, 11));
    assert_eq!(refused(".word 1\na: ?\n.word a"), (2, 10));
    // Nor is it an earlier giving: the far one counts.
    let text = format!("BZ R0, a\na: ?\n{}a:", filler(200));
    assert_eq!(refused(text), (1, 12));
}

#[test]
fn a_line_with_11_or_12_gives_its_name() {
    assert_eq!(refused(".word a\na: .word no"), (2, 11));
    assert_eq!(refused(".word a\na: MOVI R1, 300"), (2, 12));
    // It is an earlier giving: the far one doesn't count.
    let text = format!("BZ R0, a\na: MOVI R1, 300\n{}a:", filler(200));
    assert_eq!(refused(text), (2, 12));
}
