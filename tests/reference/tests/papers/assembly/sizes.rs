//! "at most 65,536 bytes"; "in a longer text, the line holding its 65,537th
//! byte, where reading ends".

use super::{refused, words};

/// This tail with spaces before it, so that the text has so many bytes. A first
/// line is put before them.
fn text(first: &str, tail: &str, length: usize) -> String {
    let spaces = length - first.len() - 1 - tail.len();
    format!("{first}\n{}{tail}", " ".repeat(spaces))
}

#[test]
fn texts_of_65_536_bytes_are_read() {
    for (tail, expected) in [
        ("\n", vec![9]),
        ("", vec![9]),
        (".word 12", vec![9, 12]),
        (".word 12\n", vec![9, 12]),
        (".word 12 ", vec![9, 12]),
        (".word 0x1F", vec![9, 31]),
        (".word (1)", vec![9, 1]),
        ("last:", vec![9]),
        ("a: .word a", vec![9, 2]),
        ("\nNOT R0, R0", vec![9, 3]),
    ] {
        assert_eq!(words(text(".word 9", tail, 65_536)), expected, "{tail:?}");
    }
    assert!(words("\n".repeat(65_536)).is_empty());
    assert!(words(" ".repeat(65_536)).is_empty());
}

#[test]
fn the_line_with_the_65_537th_byte_has_10() {
    // The byte may be any of a line, also the newline that ends it; a line that
    // would be good without it or with it.
    for tail in [
        ".word 12",
        ".word 12 ",
        ".word 12\n",
        " ",
        "\n",
        "last:",
        "a: .word a",
        "R",
        "?",
    ] {
        assert_eq!(refused(text(".word 9", tail, 65_537)), (2, 10), "{tail:?}");
        let longer = text(".word 9", tail, 65_537) + "\n.word 1\n";
        assert_eq!(refused(longer), (2, 10), "{tail:?}");
    }
    assert_eq!(refused("\n".repeat(65_537)), (65_537, 10));
    assert_eq!(refused("\n".repeat(100_000)), (65_537, 10));
    assert_eq!(refused(" ".repeat(65_537)), (1, 10));
    assert_eq!(refused(" ".repeat(1_000_000)), (1, 10));
}

#[test]
fn after_a_newline_as_65_536th_byte_the_next_line_has_it() {
    for next in [" ", "\n", ".word 1", "?", "b:\n\n"] {
        let longer = text(".word 9", ".word 12\n", 65_536) + next;
        assert_eq!(refused(longer), (3, 10), "{next:?}");
    }
}

#[test]
fn lines_before_are_read_as_they_stand() {
    for (first, number) in [("?", 10), (".word no", 11), ("MOVI R1, 300", 12)] {
        assert_eq!(refused(text(first, ".word 1", 65_537)), (1, number));
        assert_eq!(refused(text(first, ".word 1\n\n\n", 80_000)), (1, number));
    }
}

#[test]
fn reading_ends_there() {
    // The name is on the line with the byte, or on a later one: it isn't given.
    assert_eq!(refused(text(".word z", "z: .word 1", 65_537)), (1, 11));
    assert_eq!(refused(text(".word z", "z:\n", 65_537)), (1, 11));
    assert_eq!(refused(text(".word z", "\nz:", 65_539)), (1, 11));
    // z: lies in the first bytes, the line goes on to the 65,537th.
    let spaces = " ".repeat(65_537);
    assert_eq!(refused(format!(".word z\nz:{spaces}")), (1, 11));
    // On a line before, it is given.
    assert_eq!(refused(format!(".word z\nz:\n{spaces}")), (3, 10));
}

#[test]
fn many_lines_up_to_the_limit() {
    // 8 bytes each.
    let lines = ".word 5\n".repeat(8_192);
    assert_eq!(words(&lines), vec![5; 8_192]);
    assert_eq!(refused(format!("{lines}\n")), (8_193, 10));
    // Names used before the last 64 lines, which give them.
    let uses: String = (0..64).map(|k| format!(".word n{k}\n")).collect();
    let gives: String = (0..64).map(|k| format!("n{k}:.word 1\n")).collect();
    let middle = (65_536 - uses.len() - gives.len()) / 8;
    let all = words(format!("{uses}{}{gives}", ".word 5\n".repeat(middle)));
    assert_eq!(all.len(), 64 + middle + 64);
    for (k, &address) in all[..64].iter().enumerate() {
        assert_eq!(usize::from(address), 2 * (64 + middle + k));
    }
}
