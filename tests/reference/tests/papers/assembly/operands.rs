//! Operands: literals, operators, ranks, depth.

use super::{refused, value, words};

/// Each operand has this value.
fn all_have(rows: &[(&str, u16)]) {
    for &(operand, expected) in rows {
        assert_eq!(value(operand), expected, "{operand}");
    }
}

#[test]
fn operands_are_decimal_0x_or_names() {
    all_have(&[
        ("0", 0),
        ("10", 10),
        ("007", 7),
        ("65535", 0xFFFF),
        ("0x0", 0),
        ("0x10", 16),
        ("0x00000000ff", 255),
        ("0xabcd", 0xABCD),
        ("0xABCD", 0xABCD),
        ("0xaBcD", 0xABCD),
    ]);
    assert_eq!(words(".word 1\nab: .word ab\n.word 0xab"), [1, 2, 0xAB]);
    for operand in [
        "", "0x", "0xg", "0X1", "1h", "$1", "1_000", "1.5", "1e3x", "'a'", "+1", "~1",
    ] {
        assert_eq!(refused(format!(".word {operand}")), (1, 10), "{operand}");
    }
}

#[test]
fn literals_are_reduced() {
    all_have(&[
        ("65536", 0),
        ("65537", 1),
        ("100000", 34_464),
        ("0x10000", 0),
        ("0x12345", 0x2345),
        ("4294967295", 0xFFFF),
        ("4294967296", 0),
        ("18446744073709551616", 0),
        ("18446744073709551619", 3),
        ("340282366920938463463374607431768211455", 0xFFFF), // 2^128 - 1
    ]);
    // 10^n is a multiple of 65,536 for n of 16 or more, so nines are -1.
    let nines = "9".repeat(65_000);
    assert_eq!(value(&nines), 0xFFFF);
    let digits = format!("0x{}1234", "f".repeat(65_000));
    assert_eq!(value(&digits), 0x1234);
}

#[test]
fn unary_minus_also_repeated() {
    all_have(&[
        ("-1", 0xFFFF),
        ("--1", 1),
        ("- - -2", 0xFFFE),
        ("-0", 0),
        ("-32768", 0x8000),
        ("-65535", 1),
        ("-(1+2)", 0xFFFD),
        ("-(-(3))", 3),
        ("1--1", 2),
        ("1---1", 0),
        ("1+-1", 0),
        ("2*-3", 0xFFFA),
        ("2<<-0", 2),
        ("7&-2", 6),
        ("-8|1", 0xFFF9),
    ]);
}

#[test]
fn ranks_by_two() {
    // Tighter on the right, with what the other grouping would give.
    all_have(&[
        ("2+3*4", 14),   // 20
        ("20-3*4", 8),   // 68
        ("1<<2*3", 64),  // 12
        ("4&3*2", 4),    // 0
        ("1|2*3", 7),    // 9
        ("1<<2+1", 8),   // 5
        ("16<<3-2", 32), // 126
        ("6&3+1", 4),    // 3
        ("6&5-1", 4),    // 3
        ("2|1+1", 2),    // 4
        ("1|4-1", 3),    // 4
        ("6&3<<1", 6),   // 4
        ("1|1<<2", 5),   // 4
        ("1|6&4", 5),    // 4
    ]);
    // Tighter on the left.
    all_have(&[
        ("2*3+4", 10),  // 14
        ("2*5-4", 6),   // 2
        ("2*3&1", 0),   // 2
        ("2*3|1", 7),   // 6
        ("3+1<<2", 16), // 7
        ("9-1<<2", 32), // 5
        ("1+2&2", 2),   // 3
        ("3-1&1", 0),   // 2
        ("1+1|1", 3),   // 2
        ("5-4|1", 1),   // 0
        ("3<<1&2", 2),  // 3
        ("1<<2|1", 5),  // 8
        ("4&1|2", 2),   // 0
    ]);
}

#[test]
fn unary_minus_is_tightest() {
    all_have(&[
        ("-2*3", 0xFFFA),
        ("-3+5", 2),      // -(3+5) = -8
        ("-3-5", 0xFFF8), // -(3-5) = 2
        ("-1<<4", 0xFFF0),
        ("-3&1", 1), // -(3&1) = -1
        ("-4|1", 0xFFFD),
        ("-1*-1", 1),
        ("--2*-3", 0xFFFA),
    ]);
}

#[test]
fn all_ranks_at_once() {
    // --1 is 1, 1*1 is 1, 1+1 is 2, 1<<2 is 4, 12&4 is 4, 8|4 is 12.
    assert_eq!(value("8|12&1<<1+1*--1"), 12);
    // -(-1) is 1, 1*1 is 1, 1+1 is 2, 2<<1 is 4, 4&12 is 4, 4|8 is 12.
    assert_eq!(value("--1*1+1<<1&12|8"), 12);
}

#[test]
fn equal_ranks_go_left_to_right() {
    all_have(&[
        ("10-4-3", 3), // 9
        ("10-4+3", 9), // 3
        ("10+4-3-2", 9),
        ("1<<2<<3", 32), // 1<<16 = 0
        ("2*3*4", 24),
        ("1-2-3-4", 0xFFF8),
        ("6&3&2", 2),
        ("1|2|4", 7),
        // The groups between looser operators, each from the left.
        ("10-4-3<<1<<2|9-4-2", 27),
    ]);
}

#[test]
fn parentheses() {
    all_have(&[
        ("(5)", 5),
        ("((5))", 5),
        ("10-(4-3)", 9),
        ("(10-4)-3", 3),
        ("(2+3)*4", 20),
        ("1<<(2<<3)", 0),
        ("(1|6)&4", 4),
        ("(1+2)*(3+4)", 21),
        ("(1)+(2)", 3),
    ]);
    for operand in [
        "()", "(1", "1)", "(1))", "((1)", "(1)(2)", "(1)2", "1(2)", "(-)", "(1+)", "[1]",
    ] {
        assert_eq!(refused(format!(".word {operand}")), (1, 10), "{operand}");
    }
}

/// The text in so many parentheses.
fn nested(depth: usize, inner: &str) -> String {
    format!("{}{inner}{}", "(".repeat(depth), ")".repeat(depth))
}

#[test]
fn parentheses_nest_to_depth_16() {
    assert_eq!(value(&nested(16, "9")), 9);
    assert_eq!(refused(format!(".word {}", nested(17, "9"))), (1, 10));
    assert_eq!(refused(format!(".word {}", nested(300, "9"))), (1, 10));
    // Depth, not number: twenty pairs, each at depth 1; two of depth 16.
    assert_eq!(value(&format!("(1){}", "+(1)".repeat(19))), 20);
    let two = format!("{}+{}", nested(16, "1"), nested(16, "2"));
    assert_eq!(value(&two), 3);
    assert_eq!(refused(format!(".word ({two})")), (1, 10));
    // 1+(1+(..)) and -(-(..)).
    let sum = format!("{}1{}", "1+(".repeat(16), ")".repeat(16));
    assert_eq!(value(&sum), 17);
    assert_eq!(refused(format!(".word 1+({sum})")), (1, 10));
    let minus = format!("{}1{}", "-(".repeat(16), ")".repeat(16));
    assert_eq!(value(&minus), 1);
    assert_eq!(refused(format!(".word -({minus})")), (1, 10));
    // The parentheses around a register are none of the operand's.
    let load = format!("LD R1, {}(R2)", nested(16, "4"));
    assert_eq!(words(load), [0b0011_010_001_000100]);
    // Too deep is 10, also where a name is unknown.
    assert_eq!(refused(format!(".word {}", nested(17, "no"))), (1, 10));
}

#[test]
fn every_operator_works_modulo_65_536() {
    all_have(&[
        ("65535+1", 0),
        ("65535+65535", 0xFFFE),
        ("0-1", 0xFFFF),
        ("1-65535", 2),
        ("300*300", 24_464),
        ("65535*65535", 1),
        ("0x8000*2", 0),
        ("256*256", 0),
        ("0xFFFF<<8", 0xFF00),
        ("3<<15", 0x8000),
        ("65535&-1", 0xFFFF),
        ("0x8000|-1", 0xFFFF),
    ]);
}

#[test]
fn a_shift_of_16_or_more_gives_0() {
    all_have(&[
        ("0xFFFF<<0", 0xFFFF),
        ("1<<15", 0x8000),
        ("1<<16", 0),
        ("0xFFFF<<16", 0),
        ("1<<17", 0),
        ("1<<31", 0),
        ("1<<32", 0),
        ("1<<64", 0),
        ("1<<256", 0),
        ("1<<0x8000", 0),
        ("1<<65535", 0),
        // A shift of 65,535; and one of 0, for the literal is reduced.
        ("1<<-1", 0),
        ("1<<65536", 1),
    ]);
}

#[test]
fn operators_need_their_operands() {
    for operand in [
        "-", "1+", "1-", "*1", "1*", "<<1", "1<<", "&1", "1&", "|1", "1|", "1**2", "1+*2",
    ] {
        assert_eq!(refused(format!(".word {operand}")), (1, 10), "{operand}");
    }
    for operand in [
        "1 2", "a b", "1&&2", "1||2", "1/2", "1%2", "1^2", "!1", "1,2", "1:2", "1=2",
    ] {
        assert_eq!(refused(format!(".word {operand}")), (1, 10), "{operand}");
    }
}

#[test]
fn long_operands() {
    // An odd number of minuses, filling a text of 65,536 bytes.
    let minuses = format!(".word {}1", "-".repeat(65_529));
    assert_eq!(minuses.len(), 65_536);
    assert_eq!(words(minuses), [0xFFFF]);
    // 1 - 32,000 is -31,999.
    assert_eq!(value(&format!("1{}", "-1".repeat(32_000))), 33_537);
    assert_eq!(value(&format!("1{}", "+1".repeat(32_000))), 32_001);
    // An odd number of factors -1.
    assert_eq!(value(&format!("1{}", "*-1".repeat(20_001))), 0xFFFF);
    assert_eq!(value(&format!("1{}", "<<0".repeat(20_000))), 1);
    assert_eq!(value(&format!("6{}", "&3".repeat(32_000))), 2);
    assert_eq!(value(&format!("4{}", "|1".repeat(32_000))), 5);
}
