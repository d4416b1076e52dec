//! Programs on the single-memory board that store into themselves: into the next
//! word, the word being executed, words behind and ahead, and around the wrap.

use crate::call::{plain_state, Answer, Call};
use crate::make::{one_of, program_word};
use crate::random::Random;
use crate::twins::Twins;
use crate::world::{Lengths, World};
use crate::{random_of, seed};
use reference::instruction::{read, Kind};
use reference::machine::{self, Places, State};
use reference::run::Engine;

const CASES: u64 = 3_000;

/// Words of a program; a store reaches all of them from its middle.
const WORDS: u16 = 30;

/// The journal lent.
const PLACES: usize = 300;

/// The word at this place: half are ST or STB of R1 to R6 by R7, which holds the
/// program's middle, mostly about where they stand; the others leave R7 alone.
fn word(random: &mut Random, at: u16) -> u16 {
    if random.below(2) == 0 {
        let w = program_word(random);
        let writes_r7 = read(w).is_some_and(|x| x.d == 7);
        return if writes_r7 { 0x2000 } else { w };
    }
    let opcode = one_of(random, &[0x4000, 0x4000, 0x6000]);
    let b = 1 + random.below(6) as u16;
    // Itself, the next word, one behind, anywhere.
    let byte = 2 * at + random.below(2) as u16;
    let any = random.below(64) as u16;
    let target = match random.below(8) {
        0 => byte,
        1..=3 => byte + 2,
        4 => byte.saturating_sub(2 + any % 20),
        5 => byte + 2 + any % 20,
        _ => any,
    };
    // R7 is 2 · WORDS / 2 bytes after the begin.
    opcode + 512 * 7 + 64 * b + (target + 64 - WORDS) % 64
}

/// Puts a program about this address, and gives the state before it; R1 to R6
/// hold words to store.
fn program(random: &mut Random, twins: &mut Twins, first: u16) -> State {
    let mut words: Vec<u16> = (0..WORDS).map(|at| word(random, at)).collect();
    // Back to the begin: BZ R0 and BNZ R0.
    words.extend([0x8000 + 256 - (WORDS + 1), 0x8100 + 256 - (WORDS + 2)]);
    twins.change(|lent| {
        for (at, byte) in (0..).zip(words.iter().flat_map(|w| w.to_le_bytes())) {
            lent.memory[usize::from(first.wrapping_add(at))] = byte;
        }
    });
    let mut r = [0; 8].map(|_| program_word(random));
    r[7] = first.wrapping_add(WORDS);
    State {
        r,
        pc: first,
        n: random.below(1 << 31) as u32,
        board: one_of(random, &[1, 1, 2, 255]),
        ..State::reset()
    }
}

/// Which byte from PC on a store writes first; None for other words.
fn store_distance(state: &State, w: u16) -> Option<u16> {
    let x = read(w).filter(|x| matches!(x.kind, Kind::St | Kind::Stb))?;
    let address = state.r[x.a as usize].wrapping_add(x.n as u16);
    let address = if x.kind == Kind::St {
        address & !1
    } else {
        address
    };
    Some(address.wrapping_sub(state.pc))
}

/// What stores were done: into the word executed, the next, the 32 behind, and at
/// 0xFFFE or 0xFFFF.
#[derive(Debug, Default)]
struct Stores {
    own: u64,
    next: u64,
    behind: u64,
    last: u64,
}

impl Stores {
    /// Counts those of the plain machine's steps from here.
    fn count(&mut self, mut state: State, world: &World, steps: u32) {
        let mut world = world.clone();
        let lent = world.lend(&Lengths::right(0));
        let mut places = Places::of(machine::Lent {
            p: lent.program,
            d: lent.memory,
            i: lent.inputs,
            o: lent.outputs,
        })
        .expect("right lengths");
        for _ in 0..steps {
            let distance = store_distance(&state, places.fetch(&state));
            match distance {
                Some(0 | 1) => self.own += 1,
                Some(2 | 3) => self.next += 1,
                Some(0xFFE0..) => self.behind += 1,
                _ => {}
            }
            let last = distance.map(|x| state.pc.wrapping_add(x) >= 0xFFFE);
            self.last += u64::from(last == Some(true));
            state = machine::step(state, &mut places).expect("a step").state;
        }
    }
}

struct Selves {
    random: Random,
    twins: Twins,
    stores: Stores,
    /// Steps by stop.
    stops: [u64; 4],
}

impl Selves {
    /// A run by either engine, with the journal, without one, or a host step.
    fn run(&mut self, state: State) -> State {
        let engine = one_of(&mut self.random, &[Engine::Rules, Engine::PAPER_TABLE]);
        let budget = one_of(&mut self.random, &[1, 2, 3, 40, 250]);
        let call = match self.random.below(6) {
            0 => Call::HostStep(state),
            1 => Call::Run(engine, state, budget),
            _ => Call::Journaled(engine, state, budget),
        };
        let before = self.twins.sides.reference.clone();
        let answer = self.answer(&call);
        let run = answer.of_run().expect("a run");
        self.stores.count(state, &before, run.steps);
        self.stops[usize::from(run.stop)] += 1;
        match answer {
            Answer::Run(run) => plain_state(run.state),
            Answer::HostStep(state, _) => plain_state(state),
            answer => panic!("{answer:?}"),
        }
    }

    fn answer(&mut self, call: &Call) -> Answer {
        let places = one_of(&mut self.random, &[0, 3, 20]);
        let lengths = Lengths {
            journal: PLACES,
            ..Lengths::right(places)
        };
        let at = || format!("SISA_SEED={}, selves", seed());
        self.twins.answer(call, &lengths, at)
    }

    fn case(&mut self) {
        let any = self.random.word() & 0xFFFE;
        let first = one_of(&mut self.random, &[0, any, 0xFFC0, 0xFFE0, 0xFFFE]);
        let mut state = program(&mut self.random, &mut self.twins, first);
        for _ in 0..1 + self.random.below(4) {
            state = self.run(state);
        }
        let k = self.random.below(state.journaled + 1);
        match self.answer(&Call::Back(state, k)) {
            Answer::Back(back) => assert_eq!(back.refusal, 0),
            answer => panic!("{answer:?}"),
        }
    }
}

#[test]
fn programs_that_store_into_themselves() {
    let mut random = random_of(seed(), 19 << 32);
    let twins = Twins::new(World::random(&mut random));
    let mut selves = Selves {
        random,
        twins,
        stores: Stores::default(),
        stops: [0; 4],
    };
    (0..CASES).for_each(|_| selves.case());
    let Stores {
        own,
        next,
        behind,
        last,
    } = selves.stores;
    println!(
        "seed {}: stores into the word executed {own}, the next {next}, words behind {behind}, \
         at 0xFFFE {last}; runs by stop {:?}",
        seed(),
        selves.stops
    );
    assert!(own > 500 && next > 500 && behind > 500 && last > 50);
    assert!(selves.stops.iter().all(|&runs| runs > 20));
}
