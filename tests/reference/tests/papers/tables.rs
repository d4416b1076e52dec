//! Runs by any table: what each field of a control word says, alone and beside
//! the others.

use crate::board::{Board, Engine};
use crate::random::Random;
use crate::runs::{done, entry};
use reference::control::{self, TABLE};
use reference::machine::State;

/// Opcode 15, Ra is R1, Rb is R2, bits 5..3 name R3, f is 4, N6 is 28, N8 is
/// 0x9C.
const W: u16 = 0b1111_001_010_011_100;

/// W at 0x0100. Ra plus Rb is the odd address 0x3385.
fn board() -> Board {
    let mut board = Board::at(0x0100, W, &[(1, 0x1181), (2, 0x2204), (3, 0x3333)]);
    board.d[0x3384..0x3386].copy_from_slice(&[0x34, 0x92]);
    board.i[0x9C] = 0xBEEF;
    board.o[0x9C] = 0x1111;
    board
}

/// What W leaves where its control word is c, and the entry it gives.
fn after(c: u16, mut board: Board) -> (Board, Option<u64>) {
    let stepped = board.step(Engine::Table(&[c; 32]));
    (board, stepped.expect("a step is possible").entry)
}

/// Asserts that W by c changes n, PC and besides only what `change` does.
fn check(c: u16, pc: u16, expected_entry: Option<u64>, change: impl Fn(&mut Board)) {
    let mut expected = board();
    expected.s.n = 1;
    expected.s.pc = pc;
    change(&mut expected);
    let (found, found_entry) = after(c, board());
    assert!(found == expected, "{c:04X}: {:?}", found.s);
    assert_eq!(found_entry, expected_entry, "{c:04X}");
}

/// Asserts that W by c gives R3 this value.
fn check_r3(rows: &[(u16, u16)]) {
    for &(c, value) in rows {
        check(c, 0x0102, None, |board| board.s.r[3] = value);
    }
}

#[test]
fn destinations() {
    // The result is PC+2.
    check(0x400C, 0x0102, None, |_| {});
    check(0x400D, 0x0102, None, |board| board.s.r[3] = 0x0102);
    check(0x400E, 0x0102, None, |board| board.s.r[2] = 0x0102);
    check(0x400F, 0x0102, None, |board| board.s.r[1] = 0x0102);
}

#[test]
fn results() {
    // Unit 2, so the address is 0x3385.
    check_r3(&[
        (0x4041, 0x3385),
        (0x4045, 0x9234),
        (0x4049, 0xFF92),
        (0x404D, 0x0102),
        (0x4051, 0xBEEF),
    ]);
    check_r3(&[(0x4055, 0), (0x4059, 0), (0x405D, 0)]);
}

#[test]
fn units() {
    // ADD, CMPLTU, sum, second operand, low bytes; all of Ra and Rb.
    check_r3(&[
        (0x4001, 0x3385),
        (0x4021, 1),
        (0x4041, 0x3385),
        (0x4061, 0x2204),
        (0x4081, 0x0481),
    ]);
    check_r3(&[(0x40C1, 0), (0x40E1, 0)]);
}

/// Asserts what W with this f gives R3 by unit 5, of R1 = 0x9181 and each second
/// operand: Rb = 0x0204, SE(N6) = 24 + f, SE(N8) = -104 + f, and none.
fn check_unit_5(f: u16, values: [Option<u16>; 4]) {
    let mut before = board();
    before.s.r[1..3].copy_from_slice(&[0x9181, 0x0204]);
    before.put(0x0100, W - 4 + f);
    for (c, value) in [0x40A1, 0x41A1, 0x42A1, 0x43A1].into_iter().zip(values) {
        let mut found = before.clone();
        found.step(Engine::Table(&[c; 32]));
        let mut expected = before.clone();
        if let Some(value) = value {
            expected.s.r[3] = value;
            (expected.s.n, expected.s.pc) = (1, 0x0102);
        }
        assert!(found == expected, "{c:04X}, f {f}: {:?}", found.s);
    }
}

#[test]
fn unit_5_with_each_second_operand() {
    // As signed 0x9181 is -28,287, as unsigned 37,249.
    check_unit_5(0, [0x4804, 0xA418, 0xE398, 0].map(Some));
    check_unit_5(1, [0xFF21, 0xFFF5, 0x002C, 0].map(Some));
    check_unit_5(2, [0x0125, 0x000E, 0x9147, 0].map(Some));
    // -28,287 / 516, 28, -100; no second operand stands for the number 0.
    check_unit_5(4, [Some(0xFFCA), Some(0xFC0E), Some(0x011A), None]);
    // 37,249 / 516, 29, 65,437
    check_unit_5(5, [Some(0x0048), Some(0x0504), Some(0), None]);
    for f in [3, 6, 7] {
        check_unit_5(f, [None; 4]);
    }
}

#[test]
fn second_operands() {
    check_r3(&[
        (0x4061, 0x2204),
        (0x4161, 28),
        (0x4261, 0xFF9C),
        (0x4361, 0),
    ]);
    // Every unit takes them: ADD, CMPLTU, sum and low bytes of SE(N6).
    check_r3(&[
        (0x4101, 0x119D),
        (0x4121, 0),
        (0x4141, 0x119D),
        (0x4181, 0x1C81),
    ]);
    check_r3(&[(0x4301, 0x1181), (0x4381, 0x0081)]);
}

#[test]
fn stores() {
    check(0x4040, 0x0102, None, |_| {});
    check(0x4440, 0x0102, None, |board| {
        board.d[0x3384..0x3386].copy_from_slice(&[0x04, 0x22]);
    });
    check(0x4840, 0x0102, None, |board| board.d[0x3385] = 0x04);
    check(0x4C40, 0x0102, Some(entry(0, 0x9C, 0x1181)), |board| {
        board.o[0x9C] = 0x1181;
    });
    // A unit that isn't listed gives address 0.
    check(0x44C0, 0x0102, None, |board| {
        board.d[..2].copy_from_slice(&[0x04, 0x22]);
    });
    // The quotient of Ra and SE(N6) is 160.
    check(0x49A0, 0x0102, None, |board| board.d[160] = 0x04);
}

#[test]
fn next_of_ra_not_zero_and_zero() {
    for (c, not_zero, zero) in [
        (0x4000, 0x0102, 0x0102),
        (0x5000, 0x0102, 0x003A),
        (0x6000, 0x003A, 0x0102),
        (0x7000, 0x1180, 0x0000),
    ] {
        check(c, not_zero, None, |_| {});
        let mut with_zero = board();
        with_zero.s.r[1] = 0;
        assert_eq!(after(c, with_zero).0.s.pc, zero, "{c:04X}");
    }
}

#[test]
fn several_at_once_read_before_any_writes() {
    // R1, which is Ra, becomes PC+2; Ra goes to the port and to PC.
    check(0x7C0F, 0x1180, Some(entry(0, 0x9C, 0x1181)), |board| {
        board.s.r[1] = 0x0102;
        board.o[0x9C] = 0x1181;
    });
    // R3 becomes PC+2 beside a branch that is taken.
    check(0x600D, 0x003A, None, |board| board.s.r[3] = 0x0102);
    // R2, which is Rb, becomes the word that Rb replaces.
    check(0x4446, 0x0102, None, |board| {
        board.s.r[2] = 0x9234;
        board.d[0x3384..0x3386].copy_from_slice(&[0x04, 0x22]);
    });
}

#[test]
fn every_control_word_with_every_f_stops_as_it_says() {
    let mut board = Board::new();
    for c in 0..=0xFFFF_u16 {
        let (unit, second, store) = (c >> 5 & 7, c >> 8 & 3, c >> 10 & 3);
        // N6 and N8 are f, so not zero where unit 5 divides; Rb is R0.
        for (f, rb) in (0..8).flat_map(|f| [(f, 0), (f, 1)]) {
            board.s = State::reset();
            board.s.r[0] = rb;
            board.put(0, f);
            let expected = match (unit, f) {
                _ if c & 0x4000 == 0 => (1, 0, 0),
                _ if c & 0x8000 != 0 => [(0, 1, 0), (1, 0, 0)][usize::from(f > 3)],
                (1, 2 | 6 | 7) | (5, 3 | 6 | 7) => (1, 0, 0),
                (5, 4 | 5) if second == 3 || (second == 0 && rb == 0) => (3, 0, 0),
                _ if store == 3 => (2, 0, 0),
                _ => (0, 1, 0),
            };
            let reply = board.run(Engine::Table(&[c; 32]), 1, &mut []);
            assert_eq!(done(reply), expected, "{c:04X}, f {f}, Rb {rb}");
        }
    }
}

/// L12: "bit 15 leaves the choice to f". By every control word with bits 15 and 14
/// the words of opcode 15 are EI, DI, RETI, GETIID, by the destination alone.
#[test]
fn bit_15_leaves_the_choice_to_f() {
    let mut before = board();
    before.s.line = 0xAB;
    before.s.return_address = 0x5678;
    before.s.enabled = 7;
    let places = before.clone();
    for c in 0xC000..=0xFFFF_u16 {
        for f in 0..8 {
            let mut expected = before.s;
            (expected.n, expected.pc) = (1, 0x0102);
            match f {
                0 => expected.enabled = 1,
                1 => expected.enabled = 0,
                2 => (expected.enabled, expected.pc) = (1, 0x5678),
                // R3, R2 and R1 by bits 5..3, 8..6 and 11..9
                _ if c & 3 > 0 => expected.r[4 - usize::from(c & 3)] = 0xAB,
                _ => {}
            }
            let expected = (f < 4).then_some(expected);
            let w = W - 4 + f;
            let stepped = control::step(c, w, before.s, &mut before.places());
            assert_eq!(stepped.map(|x| x.state), expected, "{c:04X}, f {f}");
            assert_eq!(stepped.and_then(|x| x.entry), None);
        }
    }
    assert!(before == places);
}

/// The word with this place's opcode and, where the table has a word for each,
/// its e.
fn moved_to(place: u16, w: u16) -> u16 {
    let opcode = place / 2 * 4_096;
    match place {
        0..=15 | 22.. => opcode + w % 4_096,
        _ => opcode + (w & 0x0EFF) + place % 2 * 256,
    }
}

#[test]
fn the_paper_s_words_beside_any_word_do_as_the_rules_on_their_own() {
    let mut random = Random::new(0xAB1E);
    let mut rules = Board::random(&mut random);
    let mut table = rules.clone();
    for (place, &c) in TABLE.iter().enumerate() {
        for _ in 0..2_000 {
            let w = random.word();
            rules.s.r = rules.s.r.map(|_| random.value());
            rules.put(rules.s.pc, moved_to(place as u16, w));
            let stepped = control::step(c, w, rules.s, &mut table.places());
            assert_eq!(stepped, rules.step(Engine::Rules), "{c:04X}, {w:04X}");
        }
    }
    assert!((rules.d, rules.i, rules.o) == (table.d, table.i, table.o));
}

#[test]
fn a_table_of_zeros_stops_at_once_with_1() {
    let zeros = Engine::Table(&[0; 32]);
    let mut board = Board::random(&mut Random::new(0x2E20));
    let before = board.clone();
    for opcode in 0..16 {
        board.s.pc = 2 * opcode;
        board.put(board.s.pc, opcode * 4_096);
        let mut log = [0xEEEE; 2];
        assert_eq!(done(board.run(zeros, 1_000, &mut log)), (1, 0, 0));
        assert_eq!(log, [0xEEEE; 2]);
        assert_eq!(done(board.run(zeros, 0, &mut log)), (0, 0, 0));
        assert_eq!((board.s.pc, board.s.n), (2 * opcode, before.s.n));
    }
    assert_eq!(board.s.r, before.s.r);
    assert!((board.d, board.i, board.o) == (before.d, before.i, before.o));
}

#[test]
fn out_s_word_at_in_s_place() {
    let mut table = TABLE;
    table[20] = TABLE[21];
    // MOVI R1,7; IN R1,5; IN R1,6; unassigned
    let mut board = Board::with(&[0x9207, 0xA205, 0xA206, 0xF000]);
    board.i.fill(0xBEEF);
    let mut log = [0xEEEE];
    let reply = board.run(Engine::Table(&table), 100, &mut log);
    assert_eq!(done(reply), (2, 2, 1));
    assert_eq!(log, [entry(1, 5, 7)]);
    assert_eq!((board.o[5], board.o[6], board.s.r[1]), (7, 0, 7));
    let reply = board.run(Engine::Table(&table), 100, &mut log);
    assert_eq!(done(reply), (1, 1, 1));
    assert_eq!(log, [entry(2, 6, 7)]);
    assert_eq!((board.o[6], board.s.r[1], board.s.pc), (7, 7, 6));
}
