//! L5's counts of a run: by hand, and over the plain machine's steps. Sentences
//! in quotation marks are that request's.

use crate::board::{Board, Engine, COUNTED};
use crate::masks::MASKS;
use crate::random::Random;
use crate::runs::done;
use crate::words::{zero_divisor, BY_HAND};
use reference::machine::{assigned, State};
use reference::usage::Usage;

/// These counts, each by its place, and all others 0.
pub fn usage(kinds: &[(usize, u64)], reads: &[(usize, u64)], writes: &[(usize, u64)]) -> Usage {
    let mut usage = Usage::default();
    kinds.iter().for_each(|&(k, count)| usage.kinds[k] = count);
    reads.iter().for_each(|&(k, count)| usage.reads[k] = count);
    writes
        .iter()
        .for_each(|&(k, count)| usage.writes[k] = count);
    usage
}

/// The counts of one step of the word, by each run alike.
fn of_one_step(board: &Board, w: u16) -> Usage {
    let [rules, table, host] = COUNTED.map(|run| {
        let mut board = board.clone();
        board.put(board.s.pc, w);
        board.counted(run, 1, &mut [0]).usage
    });
    assert_eq!((rules, rules), (table, host), "{w:04X}");
    rules
}

/// Asserts that a step of the word counts its kind, and once each register of
/// the masks.
fn check_one_step(w: u16, kind: usize, reads: u8, writes: u8) {
    let mut expected = usage(&[(kind, 1)], &[], &[]);
    for k in 0..8 {
        expected.reads[k] = u64::from(reads >> k & 1);
        expected.writes[k] = u64::from(writes >> k & 1);
    }
    let mut board = Board::new();
    // No divisor is zero.
    board.s.r = [1; 8];
    assert_eq!(of_one_step(&board, w), expected, "{w:04X}");
}

#[test]
fn one_step_of_each_kind_by_hand() {
    for (kind, ((w, ..), (reads, writes))) in BY_HAND.into_iter().zip(MASKS).enumerate() {
        check_one_step(w, kind, reads, writes);
    }
}

#[test]
fn a_register_once_a_step() {
    for (w, kind, reads, writes) in [
        (0b0000_010_010_001_010, 2, 0b0000_0100, 0b0000_0010), // XOR R1,R2,R2
        (0b0000_011_011_011_110, 6, 0b0000_1000, 0b0000_1000), // SHA R3,R3,R3
        (0b0000_111_000_111_100, 4, 0b1000_0001, 0b1000_0000), // ADD R7,R7,R0
        (0b0001_000_000_000_011, 10, 0b0000_0001, 0b0000_0001), // CMPEQ R0,R0,R0
        (0b0000_001_111_000_011, 3, 0b0000_0010, 0b0000_0001), // NOT R0,R1, b set
        (0b0100_111_111_000000, 15, 0b1000_0000, 0),           // ST 0(R7),R7
        (0b0110_110_110_000000, 17, 0b0100_0000, 0),           // STB 0(R6),R6
        (0b0110_110_111_000000, 17, 0b1100_0000, 0),           // STB 0(R6),R7
        (0b0111_001_001_111111, 18, 0b0000_0010, 0b0000_0010), // JALR R1,R1, low bits set
        (0b0111_001_010_000000, 18, 0b0000_0010, 0b0000_0100), // JALR R2,R1
        (0b1000_000_0_00000000, 19, 0b0000_0001, 0),           // BZ R0,0
        (0b1000_111_1_00000000, 20, 0b1000_0000, 0),           // BNZ R7,0
        (0b1001_111_1_00000000, 22, 0b1000_0000, 0b1000_0000), // MOVHI R7,0
        (0b1001_111_0_00000000, 21, 0, 0b1000_0000),           // MOVI R7,0
        (0b1011_010_010_010_000, 25, 0b0000_0100, 0b0000_0100), // MUL R2,R2,R2
        (0b1011_011_000_011_101, 29, 0b0000_1001, 0b0000_1000), // DIVU R3,R3,R0
    ] {
        check_one_step(w, kind, reads, writes);
    }
}

#[test]
fn branches_taken_or_not() {
    // BZ R5,3 and BNZ R5,3
    for (w, kind) in [(0x8A03, 19), (0x8B03, 20)] {
        for r5 in [0, 1] {
            let board = Board::at(0x0040, w, &[(5, r5)]);
            assert_eq!(of_one_step(&board, w), usage(&[(kind, 1)], &[(5, 1)], &[]));
        }
    }
}

/// MOVI R1,2; ADDI R1,R1,-1; BNZ R1,-2; OUT 3,R1; MOVHI R1,1; SHL R2,R1,R1;
/// unassigned.
fn small_loop() -> Board {
    Board::with(&[0x9202, 0x227F, 0x83FE, 0xA303, 0x9301, 0x0257, 0xF000])
}

#[test]
fn a_run_by_hand_and_where_it_ends() {
    let none = usage(&[], &[], &[]);
    let whole = usage(
        &[(21, 1), (13, 2), (20, 2), (24, 1), (22, 1), (7, 1)],
        &[(1, 7)],
        &[(1, 4), (2, 1)],
    );
    let to_out = usage(&[(21, 1), (13, 2), (20, 2)], &[(1, 4)], &[(1, 3)]);
    let three = usage(&[(21, 1), (13, 1), (20, 1)], &[(1, 2)], &[(1, 2)]);
    for (budget, places, reply, expected) in [
        (100, 1, (1, 8, 1), whole),
        (100, 0, (2, 5, 0), to_out),
        (3, 1, (0, 3, 0), three),
        (0, 1, (0, 0, 0), none),
    ] {
        for run in &COUNTED[..2] {
            let returned = small_loop().counted(*run, budget, &mut vec![0; places]);
            assert_eq!(done(returned.reply), reply);
            assert_eq!(returned.usage, expected);
        }
    }
}

#[test]
fn a_refused_run_s_counts_are_0() {
    let with = |change: fn(&mut Board)| {
        let mut board = small_loop();
        change(&mut board);
        board
    };
    for (number, mut board) in [
        (1, with(|board| board.p.truncate(65_535))),
        (1, with(|board| board.d.push(0))),
        (1, with(|board| board.i.truncate(255))),
        (1, with(|board| board.o.push(0))),
        (5, with(|board| board.s.pc = 1)),
        (6, with(|board| board.s.n = u32::MAX)),
    ] {
        for run in COUNTED {
            let returned = board.counted(run, 1, &mut [0]);
            assert_eq!(returned.reply.refusal(), number);
            assert_eq!(returned.usage, usage(&[], &[], &[]));
        }
    }
}

#[test]
fn unassigned_words_add_nothing() {
    let before = usage(&[(0, 3), (24, 1)], &[(0, 2), (7, 1)], &[(0, 1), (7, 3)]);
    for w in (0..=0xFFFF).filter(|&w| !assigned(w)) {
        let mut after = before;
        after.count(w);
        assert_eq!(after, before, "{w:04X}");
    }
}

/// Counts a step on the word, by opcode and fields, in another way than the
/// source: its kind's number, the registers read and the one written.
fn count(usage: &mut Usage, w: u16) {
    let [opcode, a, b, d] = [w >> 12, w >> 9 & 7, w >> 6 & 7, w >> 3 & 7].map(usize::from);
    let (e, f) = (usize::from(w >> 8 & 1), usize::from(w & 7));
    let (kind, reads, write) = match (opcode, e) {
        (0, _) if f == 3 => (3, vec![a], Some(d)),
        (0, _) => (f, vec![a, b], Some(d)),
        (1, _) => (8 + f - usize::from(f > 2), vec![a, b], Some(d)),
        (2 | 3 | 5 | 7, _) => (11 + opcode, vec![a], Some(b)),
        (4 | 6, _) => (11 + opcode, vec![a, b], None),
        (8, _) => (19 + e, vec![a], None),
        (9, 0) => (21, vec![], Some(a)),
        (9, _) => (22, vec![a], Some(a)),
        (10, 0) => (23, vec![], Some(a)),
        (10, _) => (24, vec![a], None),
        (11, _) => (25 + f - usize::from(f > 3), vec![a, b], Some(d)),
        _ => (30 + f, vec![], (f == 3).then_some(d)),
    };
    usage.kinds[kind] += 1;
    (0..8).for_each(|k| usage.reads[k] += u64::from(reads.contains(&k)));
    (0..8).for_each(|k| usage.writes[k] += u64::from(write == Some(k)));
}

#[test]
fn one_step_of_every_word() {
    let mut board = Board::random(&mut Random::new(0x5EE7));
    board.s.r[3] = 0;
    for w in 0..=0xFFFF {
        let mut expected = Usage::default();
        if assigned(w) && !zero_divisor(w, &board.s.r) {
            count(&mut expected, w);
        }
        board.put(board.s.pc, w);
        for run in COUNTED {
            let state = board.s;
            let returned = board.counted(run, 1, &mut [0]);
            board.s = state;
            assert_eq!(returned.usage, expected, "{w:04X}");
        }
    }
}

/// The counts over the plain machine's states before each of so many steps, and
/// the state after them.
pub fn worked_out(mut board: Board, steps: u32) -> (Usage, State) {
    let mut usage = Usage::default();
    for _ in 0..steps {
        match board.takes() {
            true => usage.taken += 1,
            false => count(&mut usage, board.word()),
        }
        board.step(Engine::Rules).expect("a step is possible");
    }
    (usage, board.s)
}

#[test]
fn random_runs() {
    let mut random = Random::new(0xC0047);
    let mut total = Usage::default();
    for at in 0..300 {
        let start = Board::random(&mut random);
        let mut board = start.clone();
        let budget = random.below(2_000) as u32;
        let mut log = vec![0; random.below(40) as usize];
        let returned = board.counted(COUNTED[at % 2], budget, &mut log);
        let steps = returned.reply.steps();
        let usage = returned.usage;
        assert_eq!((usage, board.s), worked_out(start, steps));
        // "kind counts sum to the steps the runs reported", with L12's taken lines
        let sum = usage.kinds.iter().sum::<u64>() + usage.taken;
        assert_eq!(sum, u64::from(steps));
        total.taken += usage.taken;
        let of_registers = usage.reads.iter().chain(&usage.writes);
        assert!(of_registers.max() <= Some(&steps.into()));
        (0..34).for_each(|k| total.kinds[k] += usage.kinds[k]);
    }
    assert!(total.kinds.iter().all(|&count| count > 100), "{total:?}");
    assert!(total.taken > 50, "{total:?}");
}
