//! Lists of runs, settings and goings back in any order, beside the machines
//! before the counted steps. Sentences in quotation marks are request L7's.

use crate::board::{Board, Engine, COUNTED, JOURNALED};
use crate::journals::UNTOUCHED;
use crate::random::Random;
use crate::runs::done;
use reference::raise::raise;
use reference::set::set;

/// Far below the random board's n, so that the count decides what is held.
const PLACES: usize = 60;

/// What the host holds, and the plain machine's boards before the counted steps.
struct Trail {
    random: Random,
    board: Board,
    journal: Vec<u64>,
    boards: Vec<Board>,
    /// Which of those steps took a line.
    took: Vec<bool>,
    /// The plain machine.
    machine: Board,
    /// How often going back undid a read of the key.
    reads_undone: u32,
    /// How many takings of a line going back undid.
    takings_undone: u32,
}

/// IN from port 1.
fn reads_key(w: u16) -> bool {
    w & 0xF1FF == 0xA001
}

impl Trail {
    fn new(mut random: Random) -> Trail {
        let mut board = Board::random(&mut random).with_lines(&mut random);
        if random.below(2) == 0 {
            board = board.on_single_memory();
        }
        board.s.n += 1_000;
        Trail {
            random,
            machine: board.clone(),
            board,
            journal: vec![UNTOUCHED; PLACES],
            boards: Vec::new(),
            took: Vec::new(),
            reads_undone: 0,
            takings_undone: 0,
        }
    }

    /// The plain machine's steps, each board before one kept.
    fn follow(&mut self, steps: u32) {
        for _ in 0..steps {
            self.boards.push(self.machine.clone());
            self.took.push(self.machine.takes());
            self.machine.step(Engine::Rules).expect("a step");
        }
    }

    fn run(&mut self) {
        let budget = self.random.below(30) as u32;
        let run = JOURNALED[self.random.below(2) as usize];
        let mut log = vec![0; self.random.below(9) as usize];
        let returned = self
            .board
            .journaled(run, budget, &mut log, &mut self.journal);
        let (stop, steps, _) = done(returned.reply);
        if stop == 0 {
            let room = PLACES - self.boards.len();
            assert_eq!(steps, budget.min(room as u32));
        }
        self.follow(steps);
    }

    fn run_without_a_journal(&mut self) {
        let run = COUNTED[self.random.below(3) as usize];
        let returned = self.board.counted(run, 3, &mut [0; 3]);
        self.follow(returned.reply.steps());
        self.boards.clear();
        self.took.clear();
    }

    fn set(&mut self) {
        let any = self.random.word() as u8;
        let port = [0, 0, 1, any][self.random.below(4) as usize];
        let value = self.random.value();
        for board in [&mut self.board, &mut self.machine] {
            set(&mut board.i, port, value).unwrap();
        }
    }

    /// L12: "a raise in between stays": every board before the counted steps has it.
    fn raise(&mut self) {
        let line = self.random.below(8) as u8;
        let raised = raise(self.board.s, line);
        assert_eq!(raised.refusal, 0);
        self.board.s = raised.state;
        for board in self.boards.iter_mut().chain([&mut self.machine]) {
            board.s.pending |= 1 << line;
        }
    }

    /// One too many is tried first.
    fn back(&mut self) {
        let held = self.boards.len() as u64;
        assert_eq!(self.board.back(&self.journal, held + 1).refusal(), 14);
        let k = match self.random.below(4) {
            0 => held,
            _ => self.random.below(held + 1),
        };
        let back = self.board.back(&self.journal, k);
        let undone = self.boards.split_off((held - k) as usize);
        let took = self.took.split_off((held - k) as usize);
        self.takings_undone += took.iter().filter(|&&took| took).count() as u32;
        let words = || undone.iter().zip(&took).filter(|(_, took)| !**took);
        let outs = words().filter(|(board, _)| board.word() >> 12 == 10);
        let outs = outs.filter(|(board, _)| board.word() >> 8 & 1 == 1).count() as u64;
        assert_eq!((back.refusal(), back.fallen()), (0, outs));
        // "Inputs set in between stay as set." L8: but for input 0, which has "what
        // it held before the read", the earliest undone.
        let mut i = self.machine.i.clone();
        if let Some((board, _)) = words().find(|(board, _)| reads_key(board.word())) {
            i[0] = board.i[0];
            self.reads_undone += 1;
        }
        if let Some(earlier) = undone.into_iter().next() {
            self.machine = Board { i, ..earlier };
        }
    }

    fn call(&mut self) {
        match self.random.below(12) {
            0 => self.run_without_a_journal(),
            1 => self.set(),
            2 => self.raise(),
            3..=5 => self.back(),
            _ => self.run(),
        }
        self.machine.s.journaled = self.boards.len() as u64;
        assert!(self.board == self.machine);
    }
}

#[test]
fn lists_in_any_order() {
    let mut random = Random::new(0x7EA1);
    let (mut reads_undone, mut takings_undone) = (0, 0);
    for _ in 0..300 {
        let mut trail = Trail::new(Random::new(random.next()));
        (0..40).for_each(|_| trail.call());
        reads_undone += trail.reads_undone;
        takings_undone += trail.takings_undone;
    }
    assert!(reads_undone > 30, "{reads_undone}");
    assert!(takings_undone > 30, "{takings_undone}");
}
