//! The slower board's ticks. Sentences in quotation marks are request L9's.

use crate::board::{Board, Engine, COUNTED, JOURNALED};
use crate::journals::UNTOUCHED;
use crate::random::Random;
use crate::refusals::noisy;
use crate::words::{unassigned, BY_HAND};
use reference::ticks::ticks;

/// "3 ticks an instruction, and 4 for LD, ST, LDB and STB", by kind.
const TICKS: [u64; 34] = [
    3, 3, 3, 3, 3, 3, 3, 3, // AND, OR, XOR, NOT, ADD, SUB, SHA, SHL
    3, 3, 3, 3, 3, 3, // CMPLT, CMPLE, CMPEQ, CMPLTU, CMPLEU, ADDI
    4, 4, 4, 4, // LD, ST, LDB, STB
    3, 3, 3, 3, 3, 3, 3, // JALR, BZ, BNZ, MOVI, MOVHI, IN, OUT
    3, 3, 3, 3, 3, // MUL, MULH, MULHU, DIV, DIVU
    3, 3, 3, 3, // EI, DI, RETI, GETIID
];

/// The ticks of a step on the word, by its opcode.
fn by_opcode(w: u16) -> u64 {
    match w >> 12 {
        _ if unassigned(w) => 0,
        3..=6 => 4,
        _ => 3,
    }
}

#[test]
fn one_step_of_each_kind_by_hand() {
    for ((w, ..), expected) in BY_HAND.into_iter().zip(TICKS) {
        let mut board = Board::at(0, w, &[]);
        board.s.r = [1; 8];
        for run in COUNTED {
            let returned = board.clone().counted(run, 1, &mut [0]);
            assert_eq!((returned.reply.steps(), returned.ticks), (1, expected));
        }
        for run in JOURNALED {
            let mut board = board.clone();
            let returned = board.journaled(run, 1, &mut [0], &mut [UNTOUCHED]);
            assert_eq!((returned.reply.steps(), returned.ticks), (1, expected));
        }
    }
}

#[test]
fn every_word() {
    for w in 0..=0xFFFF {
        assert_eq!(ticks(w), by_opcode(w), "{w:04X}");
    }
}

#[test]
fn ticks_are_of_the_steps_and_not_of_the_budget() {
    // LD R1,0(R0); ADDI R1,R1,1; ST 0(R0),R1; OUT 0,R1; LDB R2,0(R0); unassigned
    let words = [0x3040, 0x2241, 0x4040, 0xA300, 0x5080, 0xF000];
    for (budget, places, expected) in [
        (0, 1, 0),
        (1, 1, 4),
        (2, 1, 7),
        (3, 1, 11),
        (100, 0, 11), // stop 2
        (4, 1, 14),
        (100, 1, 18), // stop 1
    ] {
        for run in &COUNTED[..2] {
            let mut board = Board::with(&words);
            let returned = board.counted(*run, budget, &mut vec![0; places]);
            assert_eq!(returned.ticks, expected);
        }
        for run in JOURNALED {
            let mut board = Board::with(&words);
            let mut journal = [UNTOUCHED; 3];
            let returned = board.journaled(run, budget, &mut vec![0; places], &mut journal);
            assert_eq!(returned.ticks, expected.min(11));
        }
    }
}

#[test]
fn a_refused_run_s_ticks_are_0() {
    for run in COUNTED {
        let mut board = noisy();
        board.s.pc = 1;
        assert_eq!(board.counted(run, 9, &mut [0]).ticks, 0);
        board.s.pc = 0;
        board.s.n = u32::MAX;
        assert_eq!(board.counted(run, 9, &mut [0]).ticks, 0);
        board.o.pop();
        assert_eq!(board.counted(run, 9, &mut [0]).ticks, 0);
    }
}

/// "lies between 3 and 4 times the reported steps", both taken.
#[test]
fn three_and_four_times_the_steps() {
    // ADDI R0,R0,1 everywhere; LD R1,0(R0) everywhere
    for (w, each) in [(0x2001, 3), (0x3040, 4)] {
        let mut board = Board::with(&vec![w; 32_768]);
        let returned = board.counted(COUNTED[0], 40_000, &mut []);
        assert_eq!(returned.ticks, each * 40_000);
    }
}

/// "the sum of these over the steps the plain machine took"
fn worked_out(mut board: Board, steps: u32) -> u64 {
    let mut ticks = 0;
    for _ in 0..steps {
        ticks += if board.takes() {
            3
        } else {
            by_opcode(board.word())
        };
        board.step(Engine::Rules).expect("a step is possible");
    }
    ticks
}

#[test]
fn random_runs() {
    let mut random = Random::new(0x71C);
    let mut between = 0;
    for at in 0..200 {
        let start = Board::random(&mut random);
        let budget = random.below(1_000) as u32;
        let mut log = vec![0; random.below(40) as usize];
        let returned = start.clone().counted(COUNTED[at % 3], budget, &mut log);
        let steps = u64::from(returned.reply.steps());
        assert_eq!(returned.ticks, worked_out(start.clone(), steps as u32));
        assert!((3 * steps..=4 * steps).contains(&returned.ticks));
        between += u32::from(3 * steps < returned.ticks && returned.ticks < 4 * steps);
        let mut journal = vec![UNTOUCHED; random.below(300) as usize];
        let returned = start
            .clone()
            .journaled(JOURNALED[at % 2], budget, &mut log, &mut journal);
        assert_eq!(returned.ticks, worked_out(start, returned.reply.steps()));
    }
    assert!(between > 50, "{between}");
}
