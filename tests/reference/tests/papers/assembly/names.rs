//! Addresses and names.

use super::{refused, words};

#[test]
fn words_run_on_from_address_0() {
    // Lines that give no word take no place.
    let text =
        "a: .word 1\n\nb:\nc: NOT R0, R0\nd:\n.word a\n.word b\n.word c\n.word d\n.word e\ne:";
    assert_eq!(words(text), [1, 3, 0, 2, 2, 4, 14]);
}

#[test]
fn a_name_is_the_address_of_the_next_word_after_it() {
    // On its own line, on a later line, and where no word follows.
    assert_eq!(words(".word 9\na: .word a"), [9, 2]);
    assert_eq!(words(".word 9\na:\n\n.word a"), [9, 2]);
    assert_eq!(words(".word a\na:"), [2]);
    // Known before it is given, too.
    assert_eq!(words(".word b-a\na: .word 0\nb:"), [2, 0]);
    // Several names of one address.
    assert_eq!(words("a:\nb:\nc: .word a+b+c"), [0]);
}

#[test]
fn names_have_1_to_16_letters_or_digits() {
    for name in ["a", "Z", "z9", "abcdefghijklmnop", "A234567890123456"] {
        assert_eq!(words(format!(".word 0\n{name}: .word {name}")), [0, 2]);
    }
    for name in [
        "abcdefghijklmnopq",
        "A2345678901234567",
        "a_b",
        "a.b",
        "a'",
        "\u{e9}",
    ] {
        assert_eq!(refused(format!("{name}:")), (1, 10), "{name}");
        // Outside the grammar, and so never 11.
        assert_eq!(refused(format!(".word {name}")), (1, 10), "{name}");
        assert_eq!(refused(format!("MOVI R1, 300 + {name}")), (1, 10), "{name}");
    }
}

#[test]
fn names_begin_with_a_letter() {
    for name in ["1", "1a", "0x", "0xg", "0x1g", "12ab", ".a", ".", "_a"] {
        assert_eq!(refused(format!("{name}:")), (1, 10), "{name}");
    }
    for name in ["1a", "0x", "0xg", "0x1g", "12ab", "00x1", ".a", ".5", "."] {
        assert_eq!(refused(format!(".word {name}")), (1, 10), "{name}");
    }
}

#[test]
fn names_are_not_r0_to_r7() {
    for k in 0..8 {
        assert_eq!(refused(format!("R{k}:")), (1, 10));
        assert_eq!(refused(format!("R{k}: .word 1")), (1, 10));
        assert_eq!(refused(format!(".word R{k}")), (1, 10));
        assert_eq!(refused(format!(".word 1+(-R{k})")), (1, 10));
    }
    for name in [
        "R8", "R9", "R", "RR", "R00", "R07", "R70", "r0", "r7", "xR1",
    ] {
        assert_eq!(words(format!(".word {name}\n{name}:")), [2]);
    }
}

#[test]
fn a_name_may_be_a_mnemonic_s_word() {
    let text = "ADD: ADD R1, R1, R1\nword: .word word\nMOVI: MOVI R1, MOVI";
    assert_eq!(
        words(text),
        [0b0000_001_001_001_100, 2, 0b1001_001_0_00000100]
    );
    assert_eq!(refused(".word ADD"), (1, 11));
}

/// Lines that give the names n0, n1, ..
fn given(count: usize) -> String {
    (0..count).map(|k| format!("n{k}:\n")).collect()
}

#[test]
fn at_most_64_names_are_given() {
    assert_eq!(words(given(64) + ".word n63\n.word 5"), [0, 5]);
    assert_eq!(refused(given(65)), (65, 10));
    let text = given(64) + ".word n63\n.word n0\nlast: .word 1";
    assert_eq!(refused(text), (67, 10));
    // The 65th is no name: it is unknown.
    assert_eq!(refused(format!(".word n64\n{}", given(65))), (1, 11));
}

#[test]
fn the_same_name_given_again_is_no_new_one() {
    // 64 names, one of them twice: 11, not 10.
    assert_eq!(refused(given(64) + "n5:\n"), (65, 11));
    // n0 twice, then others up to 64: the last of them is known.
    let text = format!(".word n63\nn0:\n{}", given(64));
    assert_eq!(refused(text), (3, 11));
}

#[test]
fn a_name_on_a_line_outside_the_grammar_is_not_counted() {
    // Without x, y is the 64th, and known.
    let text = format!(".word y\nx: ?\n{}y:", given(63));
    assert_eq!(refused(text), (2, 10));
}
