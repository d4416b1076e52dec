//! Lines and marks.

use super::{all_outside, refused, words};

#[test]
fn a_newline_ends_a_line_and_the_last_may_lack_it() {
    assert_eq!(words(".word 1\n.word 2\n"), [1, 2]);
    assert_eq!(words(".word 1\n.word 2"), [1, 2]);
    assert_eq!(refused(".word 1 .word 2"), (1, 10));
    assert_eq!(refused(".word\n1"), (1, 10));
    assert_eq!(refused("NOT R1,\nR2"), (1, 10));
    assert_eq!(refused("a\n:"), (1, 10));
}

#[test]
fn spaces_may_stand_anywhere_outside_marks() {
    let tight = words("a:LD R1,-(5+2<<1)(R2)");
    assert_eq!(words("a : LD R1 , - ( 5 + 2 << 1 ) ( R2 ) "), tight);
    assert_eq!(
        words("   a   :   LD   R1   ,-(5+2   <<1)   (R2)   \n   "),
        tight
    );
    all_outside(&[
        "L D R1, 5(R2)",
        "LD R 1, 5(R2)",
        ". word 1",
        ".wo rd 1",
        ".word 1 2",
    ]);
    all_outside(&[".word 0 x1", ".word 0x 1", ".word 1 < < 2", "a b: .word 1"]);
}

#[test]
fn letters_and_digits_in_a_row_and_any_point_before_are_one_mark() {
    // One mark each, which nothing takes.
    all_outside(&[
        ".word1",
        "ADDR1,R2,R3",
        ".word 12ab",
        "a.word 1",
        ".word 1.5",
        "a:..word 1",
    ]);
    // The point is before letters, so it begins a mark.
    assert_eq!(words("a:.word 1"), [1]);
    // A mnemonic's letters with more behind them are a name.
    assert_eq!(words("ADD1:.word ADD1+2"), [2]);
}

#[test]
fn two_less_thans_are_one_mark() {
    assert_eq!(words(".word 1<<2"), [4]);
    assert_eq!(words(".word 1<<-0"), [1]);
    all_outside(&[
        ".word 1<2",
        ".word 1<<<2",
        ".word 1<<<<2",
        ".word 1< <2",
        ".word 1>>2",
    ]);
}

#[test]
fn no_other_byte_parts_marks() {
    let taken = b"\n ()*+-.:,&|<0123456789";
    for byte in 0..=255_u8 {
        if taken.contains(&byte) || byte.is_ascii_alphabetic() {
            continue;
        }
        // Alone, before, between, after.
        for (before, after) in [("", ""), ("", ".word 1"), (".word 1", ""), (".word", " 1")] {
            let text = [before.as_bytes(), &[byte], after.as_bytes()].concat();
            assert_eq!(refused(&text), (1, 10), "{}", text.escape_ascii());
        }
    }
    assert_eq!(refused(".word 1\r\n.word 2\r\n"), (1, 10));
    assert_eq!(refused("\t.word 1"), (1, 10));
}

#[test]
fn capitals_are_told_apart() {
    all_outside(&[
        "add R1, R2, R3",
        "Add R1, R2, R3",
        "ADD r1, R2, R3",
        ".WORD 1",
        ".word 0X1",
    ]);
    assert_eq!(words(".word 0xaF"), [0xAF]);
    assert_eq!(words("a:.word 1\nA:.word A\n.word a"), [1, 2, 0]);
    assert_eq!(refused("a:.word A"), (1, 11));
}

#[test]
fn a_line_may_be_empty_or_a_name_alone() {
    assert!(words("").is_empty());
    assert!(words("\n").is_empty());
    assert!(words("   ").is_empty());
    assert!(words("\n  \n\n").is_empty());
    assert!(words("a:").is_empty());
    assert!(words("a:\n").is_empty());
    assert_eq!(words("\n\n.word 1\n\n  \nb:\n.word 2\n\n"), [1, 2]);
    all_outside(&[
        "a",
        ":",
        "a::",
        ":a",
        "a: :",
        "a: b:",
        "a: b: .word 1",
        ".word 1 a:",
        "5: .word 1",
    ]);
}
