//! Saves of memories of every shape, loaded back.

use crate::call::{Answer, Bytes, Call, Sides};
use crate::ffi::Named;
use crate::make::{board, destination, one_of, range, saved_length};
use crate::random::Random;
use crate::steps::random_state;
use crate::world::{Lengths, World, GUARD};
use crate::{random_of, seed};
use reference::machine::State;

const CASES: u64 = 1_000;

/// All zero, one byte set, bytes up to a last one, or full.
fn shaped_memory(random: &mut Random) -> Vec<u8> {
    let any = random.below(65_536) as usize;
    let last = one_of(random, &[0, 1, 2, 3, 65_533, 65_534, 65_535, any, any]);
    let mut memory = vec![0; 65_536];
    match random.below(5) {
        0 => {}
        1 => memory[last] = 1 << random.below(8),
        2 => memory.fill_with(|| 1 + random.below(255) as u8),
        _ => {
            memory[..last].fill_with(|| random.below(3) as u8);
            memory[last] = 1 + random.below(255) as u8;
        }
    }
    memory
}

struct Saves {
    random: Random,
    sides: Sides,
    /// What the saves are handed.
    state: State,
    /// Accepted, refused with 1, refused with 9.
    counts: [u64; 3],
}

impl Saves {
    /// Saves into so many bytes: the file, where the save is accepted.
    fn save(&mut self, length: usize, lengths: &Lengths) -> Result<Option<Bytes>, String> {
        let call = Call::Save(self.state, destination(&mut self.random, length));
        let describe = |difference| format!("into {length} bytes, lent {lengths:?}: {difference}");
        let (saved, left) = match self.sides.call(&call, lengths).map_err(describe)? {
            Answer::Save(saved, left) => (saved, left),
            answer => return Err(format!("{answer:?}")),
        };
        match saved.refusal {
            0 => self.counts[0] += 1,
            1 => self.counts[1] += 1,
            _ => self.counts[2] += 1,
        }
        let file = left.0[GUARD..GUARD + saved.length].to_vec();
        Ok((saved.refusal == 0).then_some(Bytes(file)))
    }

    /// The file loads for its board and range as both memories, or as the data memory
    /// alone, with locked bytes zero and the ports reset.
    fn load_back(&mut self, file: Bytes, program: &[u8], memory: &[u8]) -> Result<(), String> {
        self.sides.change(|lent| {
            lent.program.fill(0xEE);
            lent.memory.fill(0xEE);
            lent.inputs.fill(0xEEEE);
            lent.outputs.fill(0xEEEE);
        });
        let right = Lengths::right(0);
        let named = Named {
            board: self.state.board,
            locked: self.state.locked,
            first: self.state.first_locked,
            last: self.state.last_locked,
        };
        self.sides.call(&Call::Load(named, file), &right)?;
        let mut memory = memory.to_vec();
        if self.state.locked != 0 {
            memory[named.first.into()..=named.last.into()].fill(0);
        }
        let lent = self.sides.reference.lend(&right);
        let program_is = match self.state.board {
            0 => lent.program == program,
            _ => lent.program.iter().all(|&byte| byte == 0),
        };
        if !program_is || lent.memory != memory {
            return Err("loaded back, the memories are others".to_string());
        }
        if lent.inputs.iter().chain(&*lent.outputs).any(|&x| x != 0) {
            return Err("loaded back, a port isn't 0".to_string());
        }
        Ok(())
    }

    /// One memory isn't 65,536 bytes.
    fn wrong_lengths(&mut self) -> Lengths {
        let wrong = one_of(&mut self.random, &[0, 1, 65_535, 65_537]);
        let right = Lengths::right(0);
        match self.random.below(2) {
            0 => Lengths {
                program: wrong,
                ..right
            },
            _ => Lengths {
                memory: wrong,
                ..right
            },
        }
    }

    fn case(&mut self) -> Result<(), String> {
        let program = shaped_memory(&mut self.random);
        let memory = shaped_memory(&mut self.random);
        self.state = random_state(&mut self.random, 0);
        self.state.board = board(&mut self.random);
        let (first, last) = range(&mut self.random);
        self.state.locked = u8::from(first <= last) * one_of(&mut self.random, &[0, 0, 1, 255]);
        (self.state.first_locked, self.state.last_locked) = (first, last);
        self.sides.change(|lent| {
            lent.program.copy_from_slice(&program);
            lent.memory.copy_from_slice(&memory);
        });
        let length = saved_length(&self.state, &program, &memory);
        let right = Lengths::right(0);
        self.save(0, &right)?;
        self.save(length - 1, &right)?;
        let longer = length + 1 + self.random.below(300) as usize;
        self.save(longer, &right)?;
        let wrong = self.wrong_lengths();
        let short_or_exact = one_of(&mut self.random, &[0, length]);
        self.save(short_or_exact, &wrong)?;
        match self.save(length, &right)? {
            Some(file) => self.load_back(file, &program, &memory),
            None => Err(format!("no file of {length} bytes")),
        }
    }
}

#[test]
fn saves_of_memories_of_every_shape() {
    let seed = seed();
    let mut random = random_of(seed, 4 << 32);
    let sides = Sides::new(World::random(&mut random));
    let mut saves = Saves {
        random,
        sides,
        state: State::reset(),
        counts: [0; 3],
    };
    for case in 0..CASES {
        if let Err(difference) = saves.case() {
            panic!("SISA_SEED={seed}, save {case}, {difference}");
        }
    }
    let [accepted, refused_1, refused_9] = saves.counts;
    println!("seed {seed}: {accepted} saves, {refused_1} refused with 1, {refused_9} with 9");
    assert_eq!(saves.counts, [2 * CASES, CASES, 2 * CASES]);
}
