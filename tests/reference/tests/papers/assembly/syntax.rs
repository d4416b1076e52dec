//! The syntax of each instruction and of `.word`.

use super::{all_outside, words};

/// "One instruction a line in 004's syntax": one of each, with its word put
/// together by hand from the sheet's formats.
const BY_HAND: [(&str, u16); 34] = [
    ("AND R3, R5, R6", 0b0000_101_110_011_000),
    ("OR R3, R5, R6", 0b0000_101_110_011_001),
    ("XOR R3, R5, R6", 0b0000_101_110_011_010),
    ("NOT R3, R5", 0b0000_101_000_011_011),
    ("ADD R3, R5, R6", 0b0000_101_110_011_100),
    ("SUB R3, R5, R6", 0b0000_101_110_011_101),
    ("SHA R3, R5, R6", 0b0000_101_110_011_110),
    ("SHL R3, R5, R6", 0b0000_101_110_011_111),
    ("CMPLT R3, R5, R6", 0b0001_101_110_011_000),
    ("CMPLE R3, R5, R6", 0b0001_101_110_011_001),
    ("CMPEQ R3, R5, R6", 0b0001_101_110_011_011),
    ("CMPLTU R3, R5, R6", 0b0001_101_110_011_100),
    ("CMPLEU R3, R5, R6", 0b0001_101_110_011_101),
    ("ADDI R3, R5, -2", 0b0010_101_011_111110),
    ("LD R3, -2(R5)", 0b0011_101_011_111110),
    ("ST 31(R5), R6", 0b0100_101_110_011111),
    ("LDB R3, -32(R5)", 0b0101_101_011_100000),
    ("STB -2(R5), R6", 0b0110_101_110_111110),
    ("JALR R3, R5", 0b0111_101_011_000000),
    // A branch's operand is its target: at address 0, -2 is two words before
    // the next one.
    ("BZ R5, -2", 0b1000_101_0_11111110),
    ("BNZ R5, 2", 0b1000_101_1_00000000),
    ("MOVI R3, -2", 0b1001_011_0_11111110),
    ("MOVHI R3, 254", 0b1001_011_1_11111110),
    ("IN R3, 254", 0b1010_011_0_11111110),
    ("OUT 254, R5", 0b1010_101_1_11111110),
    ("MUL R3, R5, R6", 0b1011_101_110_011_000),
    ("MULH R3, R5, R6", 0b1011_101_110_011_001),
    ("MULHU R3, R5, R6", 0b1011_101_110_011_010),
    ("DIV R3, R5, R6", 0b1011_101_110_011_100),
    ("DIVU R3, R5, R6", 0b1011_101_110_011_101),
    ("EI", 0b1100_000_000_000_000),
    ("DI", 0b1100_000_000_000_001),
    ("RETI", 0b1100_000_000_000_010),
    ("GETIID R3", 0b1100_000_000_011_011),
];

#[test]
fn one_line_of_each_instruction_by_hand() {
    for (text, word) in BY_HAND {
        assert_eq!(words(text), [word], "{text}");
        assert_eq!(words(format!("{text}\n")), [word], "{text}");
    }
}

#[test]
fn the_marked_cases_as_text() {
    assert_eq!(words("SHA R7,R4,R1"), [0x087E]); // (a)
    assert_eq!(words("CMPLEU R3,R1,R2"), [0x129D]); // (b)
    assert_eq!(words("MOVI R5, 0xF6\nMOVHI R5, 0x3A"), [0x9AF6, 0x9B3A]); // (c)
    assert_eq!(words("ADDI R2,R2,-1"), [0x24BF]); // (d)
    let branch = words(".word 0\n.word 0\nBNZ R2, 0");
    assert_eq!(branch[2], 0x85FD); // (e)
    assert_eq!(words("JALR R1,R1"), [0x7240]); // (f)
    assert_eq!(words("LD R1,3(R0)"), [0x3043]); // (g)
}

#[test]
fn a_point_and_word_gives_a_word() {
    assert_eq!(words(".word 0xF000"), [0xF000]);
    assert_eq!(words(".word-1"), [0xFFFF]);
    assert_eq!(words(".word(5)"), [5]);
    all_outside(&[
        ".word",
        ".word 1, 2",
        ".word 1 2",
        ".word R1",
        "word 1",
        ".Word 1",
    ]);
}

#[test]
fn operands_missing_too_many_or_in_another_order() {
    all_outside(&[
        "ADD",
        "ADD R1",
        "ADD R1,",
        "ADD R1, R2",
        "ADD R1, R2, R3, R4",
        "ADD R1, R2, R3,",
        "ADD R1 R2 R3",
        "ADD, R1, R2, R3",
        "NOT R1, R2, R3",
        "NOT R1",
        "JALR R1",
        "JALR R1, R2, 0",
        "ADDI R1, R2",
        "ADDI R1, 5, R2",
        "ADDI R1, R2, R3",
        "ADD R1, R2, 3",
        "LD R1, R2",
        "LD R1, 5",
        "LD R1, 5 R2",
        "LD R1, 5(R2",
        "LD R1, 5 R2)",
        "LD R1, (R2)",
        "LD R1, 5(2)",
        "LD 5(R2), R1",
        "LD R1, 5((R2))",
        "LD R1, (5(R2))",
        "LD R1, 5(R2)(R3)",
        "ST R1, 5(R2)",
        "ST 5(R2)",
        "ST (R2), R1",
        "STB R1, 5(R2)",
        "LDB 5(R2), R1",
        "BZ 5",
        "BZ R1",
        "BZ 5, R1",
        "BZ R1, R2",
        "MOVI R1",
        "MOVI 5, R1",
        "MOVHI R1, R2",
        "IN 5, R1",
        "IN R1",
        "OUT R1, 5",
        "OUT 5",
        "MUL R1, R2",
        "MULH R1, R2, R3, R4",
        "MULHU R1, R2, 3",
        "DIV 1, R2, R3",
        "DIVU R1 R2 R3",
        "EI R1",
        "EI 0",
        "DI,",
        "DI DI",
        "RETI R1",
        "RETI ()",
        "GETIID",
        "GETIID 1",
        "GETIID (R1)",
        "GETIID R1,",
        "GETIID R1, R2",
    ]);
}

#[test]
fn no_register() {
    all_outside(&[
        "ADD R8, R1, R1",
        "ADD R1, R9, R1",
        "ADD R1, R1, r1",
        "ADD R10, R1, R1",
        "ADD R01, R1, R1",
        "ADD R, R1, R1",
        "ADD 1, R1, R1",
        "ADD (R1), R1, R1",
        "OUT 1, PC",
    ]);
}

#[test]
fn no_mnemonic() {
    all_outside(&[
        "MULU R1, R2, R3",
        "DIVH R1, R2, R3",
        "MOD R1, R2, R3",
        "Mul R1, R2, R3",
        "div R1, R2, R3",
        "MULF R1, R2, R3",
        "CMPL R1, R2, R3",
        "HALT",
        "Ei",
        "di",
        "RET",
        "GETIIDR1",
        "GETID R1",
        ".EI",
        ".ADD R1, R2, R3",
        "5",
        "R1",
        ",",
    ]);
}

#[test]
fn two_on_a_line() {
    all_outside(&[
        "NOT R1, R2 NOT R1, R2",
        ".word 1 .word 2",
        "NOT R1, R2; NOT R1, R2",
        "NOT R1, R2 # so",
    ]);
}
