//! L4's masks: by hand from the sheet, and tried on the plain machine. Sentences
//! in quotation marks are that request's.

use crate::board::{Board, Engine};
use crate::random::Random;
use crate::registers::merged;
use crate::words::{zero_divisor, BY_HAND};
use reference::instruction::{read, Instruction, Kind};
use reference::machine::{assigned, State, Stepped};
use reference::masks::{masks, registers, Masks};

const R3: u8 = 0b0000_1000;
const R5: u8 = 0b0010_0000;
const R6: u8 = 0b0100_0000;

/// What the words of `BY_HAND` read and write.
pub const MASKS: [(u8, u8); 34] = [
    (R5 | R6, R3), // AND R3,R5,R6
    (R5 | R6, R3), // OR
    (R5 | R6, R3), // XOR
    (R5, R3),      // NOT R3,R5
    (R5 | R6, R3), // ADD
    (R5 | R6, R3), // SUB
    (R5 | R6, R3), // SHA
    (R5 | R6, R3), // SHL
    (R5 | R6, R3), // CMPLT
    (R5 | R6, R3), // CMPLE
    (R5 | R6, R3), // CMPEQ
    (R5 | R6, R3), // CMPLTU
    (R5 | R6, R3), // CMPLEU
    (R5, R3),      // ADDI R3,R5,-2
    (R5, R3),      // LD R3,-2(R5)
    (R5 | R6, 0),  // ST 31(R5),R6
    (R5, R3),      // LDB R3,-32(R5)
    (R5 | R6, 0),  // STB -2(R5),R6
    (R5, R3),      // JALR R3,R5
    (R5, 0),       // BZ R5,-2
    (R5, 0),       // BNZ R5,-128
    (0, R3),       // MOVI R3,-2
    (R3, R3),      // MOVHI R3,254
    (0, R3),       // IN R3,254
    (R5, 0),       // OUT 254,R5
    (R5 | R6, R3), // MUL R3,R5,R6
    (R5 | R6, R3), // MULH
    (R5 | R6, R3), // MULHU
    (R5 | R6, R3), // DIV
    (R5 | R6, R3), // DIVU
    (0, 0),        // EI
    (0, 0),        // DI
    (0, 0),        // RETI
    (0, R3),       // GETIID R3
];

#[test]
fn one_word_of_each_kind_by_hand() {
    for ((w, ..), (reads, writes)) in BY_HAND.into_iter().zip(MASKS) {
        assert_eq!(masks(w), Masks { reads, writes }, "{w:04X}");
    }
}

#[test]
fn edges_by_hand() {
    for (w, reads, writes) in [
        (0b0000_010_010_001_010, 0b0000_0100, 0b0000_0010), // XOR R1,R2,R2
        (0b0000_111_000_111_100, 0b1000_0001, 0b1000_0000), // ADD R7,R7,R0
        (0b0000_000_111_000_011, 0b0000_0001, 0b0000_0001), // NOT R0,R0, b set
        (0b0100_111_111_000000, 0b1000_0000, 0),            // ST 0(R7),R7
        (0b0111_001_001_111111, 0b0000_0010, 0b0000_0010),  // JALR R1,R1, low bits set
        (0b1000_000_0_00000000, 0b0000_0001, 0),            // BZ R0,0
        (0b1001_111_1_00000000, 0b1000_0000, 0b1000_0000),  // MOVHI R7,0
        (0b1001_000_0_11111111, 0, 0b0000_0001),            // MOVI R0,-1
        (0b1010_111_0_11111111, 0, 0b1000_0000),            // IN R7,255
        (0b1011_010_010_001_100, 0b0000_0100, 0b0000_0010), // DIV R1,R2,R2
        (0b1011_000_111_111_000, 0b1000_0001, 0b1000_0000), // MUL R7,R0,R7
        (0b1100_111_111_111_010, 0, 0),                     // RETI, ignored bits set
        (0b1100_111_111_000_011, 0, 0b0000_0001),           // GETIID R0, ignored bits set
    ] {
        assert_eq!(masks(w), Masks { reads, writes }, "{w:04X}");
    }
}

#[test]
fn unassigned_words_give_0_and_0() {
    let unassigned = (0..=0xFFFF).filter(|&w| !assigned(w));
    for w in unassigned {
        let none = Masks {
            reads: 0,
            writes: 0,
        };
        assert_eq!(masks(w), none, "{w:04X}");
    }
}

/// A state whose registers are often alike, or zero.
fn random_state(random: &mut Random) -> State {
    let values = [0, random.value(), random.value()];
    State {
        r: [0; 8].map(|_| values[random.below(3) as usize]),
        pc: random.word() & 0xFFFE,
        n: random.next() as u32,
        ..State::reset()
    }
}

/// One step of the word by the plain machine, a key pressed.
fn step(board: &mut Board, w: u16, state: State) -> Option<Stepped> {
    board.s = state;
    board.i[0] = 1;
    board.put(state.pc, w);
    board.step(Engine::Rules)
}

/// Two boards alike but for their registers.
struct Twins(Board, Board);

impl Twins {
    fn random(random: &mut Random) -> Twins {
        let board = Board::random(random);
        Twins(board.clone(), board)
    }

    /// Whether the word's steps from this state and from the one with the other
    /// registers are "alike in all else, the written register included".
    fn step_alike(&mut self, w: u16, state: State, r: [u16; 8]) -> bool {
        let expected = step(&mut self.0, w, state).map(|mut stepped| {
            stepped.state.r = merged(masks(w).writes, stepped.state.r, r);
            stepped
        });
        let found = step(&mut self.1, w, State { r, ..state });
        let (x, y) = (&self.0, &self.1);
        let places_alike = (&x.d, &x.i, &x.o) == (&y.d, &y.i, &y.o);
        if !places_alike {
            self.1 = self.0.clone();
        }
        found == expected && places_alike
    }
}

#[test]
fn registers_outside_reads_change_nothing_else() {
    let mut random = Random::new(0x2EAD5);
    let mut twins = Twins::random(&mut random);
    for w in 0..=0xFFFF {
        for _ in 0..3 {
            let state = random_state(&mut random);
            let others = [0; 8].map(|_| random.value());
            let r = merged(masks(w).reads, state.r, others);
            assert!(twins.step_alike(w, state, r), "{w:04X} {state:?} {r:?}");
        }
    }
}

/// Whether the rule uses a register to no effect: "uses" is the rule's text.
fn without_effect(x: Instruction) -> bool {
    match x.kind {
        // 0; 0 or 1, whatever the register holds
        Kind::Xor | Kind::Sub => x.a == x.b,
        Kind::Cmplt | Kind::Cmple | Kind::Cmpeq => x.a == x.b,
        Kind::Cmpltu | Kind::Cmpleu => x.a == x.b,
        // To PC+2 either way
        Kind::Bz | Kind::Bnz => x.n == 0,
        _ => false,
    }
}

#[test]
fn each_register_of_reads_makes_a_difference() {
    let mut random = Random::new(0xD1FF);
    let mut twins = Twins::random(&mut random);
    for w in 0..=0xFFFF {
        for k in registers(masks(w).reads) {
            let shown = (0..100).any(|_| {
                let state = random_state(&mut random);
                let mut r = state.r;
                r[k] = random_state(&mut random).r[k];
                !twins.step_alike(w, state, r)
            });
            assert_eq!(shown, !read(w).is_some_and(without_effect), "{w:04X} R{k}");
        }
    }
}

/// Whether the rule writes a register to no effect.
fn written_as_it_was(x: Instruction) -> bool {
    match x.kind {
        Kind::And | Kind::Or => x.a == x.d && x.b == x.d,
        Kind::Addi => x.a == x.d && x.n == 0,
        _ => false,
    }
}

#[test]
fn a_step_changes_the_register_of_writes_and_no_other() {
    let mut random = Random::new(0x3217E5);
    let mut board = Board::random(&mut random);
    for w in (0..=0xFFFF).filter(|&w| assigned(w)) {
        let writes = masks(w).writes;
        let mut changed = 0;
        for _ in 0..30 {
            let state = random_state(&mut random);
            let Some(stepped) = step(&mut board, w, state) else {
                assert!(zero_divisor(w, &state.r), "{w:04X} {state:?}");
                continue;
            };
            let r = stepped.state.r;
            assert_eq!(r, merged(writes, r, state.r), "{w:04X} {state:?}");
            changed += u32::from(r != state.r);
        }
        let changes = writes != 0 && !read(w).is_some_and(written_as_it_was);
        assert_eq!(changed > 0, changes, "{w:04X}");
    }
}
