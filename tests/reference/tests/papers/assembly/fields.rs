//! Values in their fields.

use super::{filler, refused, words};

/// The word of one line.
fn word(line: &str) -> u16 {
    words(line)[0]
}

#[test]
fn signed_fields_read_the_result_as_signed() {
    // Each instruction with an N6, and its word with R2, R1 and N6 zero.
    for (before, after, zero) in [
        ("ADDI R1, R2, ", "", 0b0010_010_001_000000),
        ("LD R1, ", "(R2)", 0b0011_010_001_000000),
        ("ST ", "(R2), R1", 0b0100_010_001_000000),
        ("LDB R1, ", "(R2)", 0b0101_010_001_000000),
        ("STB ", "(R2), R1", 0b0110_010_001_000000),
    ] {
        for (operand, n6) in [
            ("0", 0),
            ("31", 0b011111),
            ("-1", 0b111111),
            ("-32", 0b100000),
            ("65535", 0b111111),
            ("65504", 0b100000),
            ("0xFFFE", 0b111110),
            ("65536+5", 5),
        ] {
            assert_eq!(word(&format!("{before}{operand}{after}")), zero + n6);
        }
        // -33 is 65,503.
        for operand in [
            "32", "-33", "63", "64", "65503", "255", "256", "32767", "32768",
        ] {
            let text = format!("{before}{operand}{after}");
            assert_eq!(refused(&text), (1, 12), "{text}");
        }
    }
}

#[test]
fn movi_also_takes_128_to_255_as_the_same_eight_bits() {
    for (operand, n8) in [
        ("0", 0),
        ("127", 0b01111111),
        ("128", 0b10000000),
        ("255", 0b11111111),
        ("0xF6", 0xF6),
        ("-1", 0b11111111),
        ("-128", 0b10000000),
        ("65408", 0b10000000), // -128
    ] {
        let text = format!("MOVI R3, {operand}");
        assert_eq!(word(&text), 0b1001_011_0_00000000 + n8, "{text}");
    }
    for operand in [
        "256", "300", "-129", "65407", "-256", "32767", "32768", "1<<8",
    ] {
        assert_eq!(refused(format!("MOVI R3, {operand}")), (1, 12), "{operand}");
    }
}

#[test]
fn movhi_in_and_out_take_0_to_255() {
    for (before, after, zero) in [
        ("MOVHI R3, ", "", 0b1001_011_1_00000000),
        ("IN R3, ", "", 0b1010_011_0_00000000),
        ("OUT ", ", R3", 0b1010_011_1_00000000),
    ] {
        for (operand, n8) in [
            ("0", 0),
            ("127", 127),
            ("128", 128),
            ("255", 255),
            ("65536", 0),
        ] {
            assert_eq!(word(&format!("{before}{operand}{after}")), zero + n8);
        }
        for operand in ["256", "-1", "-128", "65535", "65280", "32768"] {
            let text = format!("{before}{operand}{after}");
            assert_eq!(refused(&text), (1, 12), "{text}");
        }
    }
}

#[test]
fn a_branch_operand_is_its_target_address() {
    for (mnemonic, zero) in [
        ("BZ", 0b1000_101_0_00000000),
        ("BNZ", 0b1000_101_1_00000000),
    ] {
        // At address 0 the distance is counted from 2.
        for (target, n8) in [
            ("2", 0),
            ("4", 1),
            ("0", 0xFF),
            ("256", 0x7F),
            ("-254", 0x80),
            ("65282", 0x80),
            ("65534", 0xFE),
            ("65536+2", 0),
        ] {
            let text = format!("{mnemonic} R5, {target}");
            assert_eq!(word(&text), zero + n8, "{text}");
        }
        for target in ["258", "-256", "65280", "32768", "32770", "0x4000"] {
            let text = format!("{mnemonic} R5, {target}");
            assert_eq!(refused(&text), (1, 12), "{text}");
        }
    }
}

#[test]
fn an_odd_distance_does_not_fit() {
    for target in ["1", "3", "5", "-1", "255", "257", "-253", "-255", "32769"] {
        assert_eq!(refused(format!("BZ R5, {target}")), (1, 12), "{target}");
    }
    assert_eq!(refused("a: BNZ R5, a+1"), (1, 12));
}

#[test]
fn branch_distances_are_reduced() {
    // At address 256, the target 65,534 is 260 before 258: -260 doesn't fit.
    // At address 200 it is 204 before 202: -204, half of it -102 or 0x9A.
    assert_eq!(refused(filler(128) + "BZ R0, -2"), (129, 12));
    let branch = words(filler(100) + "BZ R0, -2");
    assert_eq!(branch[100], 0x809A);
    // 32,768 on from 2: as signed -32,768.
    assert_eq!(refused("BZ R0, 32770"), (1, 12));
}

#[test]
fn forward_and_backward_to_the_limits() {
    // 127 words between, then one more.
    let forward = |between| format!("BZ R5, t\n{}t:", filler(between));
    assert_eq!(words(forward(0))[0], 0b1000_101_0_00000000);
    assert_eq!(words(forward(127))[0], 0b1000_101_0_01111111);
    assert_eq!(refused(forward(128)), (1, 12));
    // The branch itself is one of the 128 words back.
    let backward = |between| format!("t: {}BNZ R5, t", filler(between));
    assert_eq!(words(backward(127))[127], 0b1000_101_1_10000000);
    assert_eq!(refused(backward(128)), (129, 12));
    assert_eq!(words("t: BNZ R5, t"), [0b1000_101_1_11111111]);
}

#[test]
fn any_value_fits_a_word() {
    for (operand, expected) in [
        ("0", 0),
        ("65535", 0xFFFF),
        ("-32768", 0x8000),
        ("65536", 0),
    ] {
        assert_eq!(word(&format!(".word {operand}")), expected);
    }
}

#[test]
fn words_are_written_low_byte_first_and_counted() {
    use reference::assemble::assemble;
    let mut program = vec![0xEE; 65_536];
    let text = "\n.word 0x1234\na:\n\n.word 0xABCD\nNOT R0, R0\n";
    assert_eq!(assemble(text.as_bytes(), &mut program), Ok(3));
    assert_eq!(program[..8], [0x34, 0x12, 0xCD, 0xAB, 3, 0, 0xEE, 0xEE]);
    assert_eq!(assemble(b"", &mut program), Ok(0));
    assert_eq!(program[..2], [0x34, 0x12]);
}
