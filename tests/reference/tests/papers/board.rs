//! A machine with its memories and ports, for the tests.

use crate::random::Random;
use reference::back::{step_back, Back};
use reference::control::{Table, TABLE};
use reference::machine::{Lent, Memories, Places, State, Stepped, MEMORY, PORTS};
use reference::run::{host_step, run, run_by_rules, run_by_table, Reply, Returned};

pub use reference::run::Engine;

#[derive(Clone, Debug, PartialEq, Eq)]
pub struct Board {
    pub s: State,
    pub p: Vec<u8>,
    pub d: Vec<u8>,
    pub i: Vec<u16>,
    pub o: Vec<u16>,
}

/// Another table that must do as the paper's: where bit 15 leaves the choice to f no
/// field but the destination says anything, and without a destination, a store or an
/// address unit and result say nothing.
const OTHER_TABLE: Table = {
    let mut table = TABLE;
    table[24] = 0xFFFD;
    table[25] = 0xC3BD;
    table[16] |= 0x0140;
    table[17] |= 0x020C;
    table
};

/// Engines that agree on every word.
pub const ENGINES: [Engine; 3] = [
    Engine::Rules,
    Engine::PAPER_TABLE,
    Engine::Table(&OTHER_TABLE),
];

/// A run that reports its counts.
pub type Counted = fn(State, Lent, u32, &mut [u64]) -> Returned;

/// Without a journal. The last is a host step, whatever the budget.
pub const COUNTED: [Counted; 3] = [
    |state, lent, budget, log| run_by_rules(state, lent, budget, log, None),
    |state, lent, budget, log| run_by_table(state, lent, budget, log, None),
    |mut held, lent, _, log| host_step(&mut held, lent, log),
];

/// A run that keeps a journal.
pub type Journaled = fn(State, Lent, u32, &mut [u64], &mut [u64]) -> Returned;

pub const JOURNALED: [Journaled; 2] = [
    |state, lent, budget, log, journal| run_by_rules(state, lent, budget, log, Some(journal)),
    |state, lent, budget, log, journal| run_by_table(state, lent, budget, log, Some(journal)),
];

impl Board {
    pub fn new() -> Board {
        Board {
            s: State::reset(),
            p: vec![0; MEMORY],
            d: vec![0; MEMORY],
            i: vec![0; PORTS],
            o: vec![0; PORTS],
        }
    }

    /// A board with these words from address 0.
    pub fn with(words: &[u16]) -> Board {
        let mut board = Board::new();
        for (at, &w) in words.iter().enumerate() {
            board.put(2 * at as u16, w);
        }
        board
    }

    /// A board with one word at PC and these registers.
    pub fn at(pc: u16, w: u16, registers: &[(usize, u16)]) -> Board {
        let mut board = Board::new();
        board.s.pc = pc;
        board.put(pc, w);
        for &(k, value) in registers {
            board.s.r[k] = value;
        }
        board
    }

    /// Any state and memories, the program nearly all assigned words. Lines may be
    /// pending, but are not enabled.
    pub fn random(random: &mut Random) -> Board {
        let mut board = Board::new();
        for at in (0..board.p.len()).step_by(2) {
            let w = random.instruction();
            board.put(at as u16, w);
        }
        for byte in board.d.iter_mut() {
            *byte = random.word() as u8;
        }
        for port in 0..256 {
            board.i[port] = random.value();
            board.o[port] = random.value();
        }
        for k in 0..8 {
            board.s.r[k] = random.value();
        }
        board.s.pc = random.word() & 0xFFFE;
        board.s.n = random.below(1 << 31) as u32;
        board.s.pending = [0, random.word() as u8][random.below(2) as usize];
        board.s.line = random.word() as u8;
        board.s.return_address = random.word() & 0xFFFE;
        board
    }

    /// With 4,000 of EI, DI, RETI and GETIID at any places of the program.
    pub fn with_lines(mut self, random: &mut Random) -> Board {
        for _ in 0..4_000 {
            let w = [0, 0, 0, 1, 2, 3][random.below(6) as usize] + 8 * random.below(8);
            self.put(random.word() & 0xFFFE, 0xC000 + w as u16);
        }
        self
    }

    /// The single-memory board with this one's program in D, and bytes in P that it
    /// never reads.
    pub fn on_single_memory(mut self) -> Board {
        self.d = self.p;
        self.p = (0..MEMORY).map(|at| (at % 251) as u8).collect();
        self.s.board = 1;
        self
    }

    /// The memory that instructions are fetched from.
    fn fetch_memory(&mut self) -> &mut [u8] {
        match self.s.memories() {
            Memories::Two => &mut self.p,
            Memories::Single => &mut self.d,
        }
    }

    pub fn put(&mut self, pc: u16, w: u16) {
        let [low, high] = w.to_le_bytes();
        self.fetch_memory()[usize::from(pc)] = low;
        self.fetch_memory()[usize::from(pc.wrapping_add(1))] = high;
    }

    /// Whether one of the two bytes at PC is locked, on the single-memory board.
    pub fn fetch_is_locked(&self) -> bool {
        let (s, pc) = (&self.s, self.s.pc);
        let locked = |at: u16| s.first_locked <= at && at <= s.last_locked;
        s.board != 0 && s.locked != 0 && (locked(pc) || locked(pc.wrapping_add(1)))
    }

    /// Whether the next step takes a line.
    pub fn takes(&self) -> bool {
        self.s.enabled != 0 && self.s.pending != 0
    }

    /// The word at PC.
    pub fn word(&self) -> u16 {
        let at = usize::from(self.s.pc);
        let memory = match self.s.memories() {
            Memories::Two => &self.p,
            Memories::Single => &self.d,
        };
        u16::from_le_bytes([memory[at], memory[at + 1]])
    }

    /// One step of the engine; None if no step is possible.
    pub fn step(&mut self, engine: Engine) -> Option<Stepped> {
        let stepped = engine.step(self.s, &mut self.places())?;
        self.s = stepped.state;
        Some(stepped)
    }

    pub fn lent(&mut self) -> Lent<'_> {
        Lent {
            p: &self.p,
            d: &mut self.d,
            i: &mut self.i,
            o: &mut self.o,
        }
    }

    pub fn places(&mut self) -> Places<'_> {
        Places::of(self.lent()).unwrap()
    }

    /// A run of the engine; the board keeps the state it replies.
    pub fn run(&mut self, engine: Engine, budget: u32, log: &mut [u64]) -> Reply {
        let reply = run(engine, self.s, self.lent(), budget, log);
        self.s = reply.state();
        reply
    }

    /// The same with the counts.
    pub fn counted(&mut self, run: Counted, budget: u32, log: &mut [u64]) -> Returned {
        let returned = run(self.s, self.lent(), budget, log);
        self.s = returned.reply.state();
        returned
    }

    /// The same with a journal.
    pub fn journaled(
        &mut self,
        run: Journaled,
        budget: u32,
        log: &mut [u64],
        journal: &mut [u64],
    ) -> Returned {
        let returned = run(self.s, self.lent(), budget, log, journal);
        self.s = returned.reply.state();
        returned
    }

    /// Goes back; the board keeps the state that is replied.
    pub fn back(&mut self, journal: &[u64], k: u64) -> Back {
        let back = step_back(self.s, self.lent(), journal, k);
        self.s = back.state();
        back
    }
}

/// What one word leaves, by all engines, which must agree.
pub fn after(pc: u16, w: u16, registers: &[(usize, u16)]) -> Board {
    after_on(&Board::at(pc, w, registers))
}

/// What one step leaves of this board, by all engines, which must agree.
pub fn after_on(before: &Board) -> Board {
    let mut boards = ENGINES.map(|_| before.clone());
    let stepped = [0, 1, 2].map(|k| boards[k].step(ENGINES[k]).expect("a step is possible"));
    assert!(stepped.iter().all(|x| *x == stepped[0]), "{stepped:?}");
    assert!(boards.iter().all(|board| *board == boards[0]));
    boards[0].clone()
}

/// A trim file: the four header numbers, then the rest.
pub fn file(w: u32, program_offset: u32, c: u32, data_offset: u32, rest: &[u8]) -> Vec<u8> {
    let mut bytes = Vec::new();
    for number in [w, program_offset, c, data_offset] {
        bytes.extend(number.to_le_bytes());
    }
    bytes.extend(rest);
    bytes
}

/// The bytes of words, low byte first.
pub fn bytes_of(words: &[u16]) -> Vec<u8> {
    words.iter().flat_map(|w| w.to_le_bytes()).collect()
}
