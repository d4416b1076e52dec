//! "Two accepted loads of one board and range, whose memories then differ only in
//! locked bytes, get equal replies, logs, ticks, sheets, windows and saved files from
//! every list of calls."

use super::locked;
use crate::board::{Board, COUNTED, JOURNALED};
use crate::random::Random;
use crate::saves::saved;
use reference::assemble::assemble;
use reference::raise::raise;
use reference::set::set;
use reference::sheet::Sheet;
use reference::window::{window, Memory};

/// Two hosts.
struct Pair {
    boards: [Board; 2],
    journals: [Vec<u64>; 2],
    sheets: [Sheet; 2],
    /// Runs that stopped with 4.
    stopped: u32,
}

impl Pair {
    /// A board, and one with other locked bytes.
    fn new(random: &mut Random) -> Pair {
        let mut board = Board::random(random).with_lines(random);
        if random.below(2) == 0 {
            board = board.on_single_memory();
        }
        let first = random.word();
        let last = first.saturating_add(random.below(3_000) as u16);
        let one = locked(board, first, last);
        let mut other = one.clone();
        for at in first..=last {
            other.d[usize::from(at)] = random.word() as u8;
        }
        Pair {
            boards: [one, other],
            journals: [vec![7; 90], vec![7; 90]],
            sheets: [Sheet::empty(); 2],
            stopped: 0,
        }
    }

    /// A run by either engine for each, with a journal or none.
    fn run(&mut self, random: &mut Random) {
        let budget = random.below(60) as u32;
        let journaled = random.below(3) > 0;
        let [one, other] = [0, 1].map(|k| {
            let engine = random.below(2) as usize;
            let mut log = [0xEEEE; 5];
            let (board, journal) = (&mut self.boards[k], &mut self.journals[k]);
            let returned = match journaled {
                true => board.journaled(JOURNALED[engine], budget, &mut log, journal),
                false => board.counted(COUNTED[engine], budget, &mut log),
            };
            let fed = self.sheets[k].feed(returned.reply.refusal(), returned.usage);
            self.sheets[k] = fed.sheet;
            (returned, log)
        });
        assert_eq!(one, other);
        if let reference::run::Reply::Done { stop: 4, .. } = one.0.reply {
            self.stopped += 1;
            for board in &mut self.boards {
                board.s.pc = board.s.pc.wrapping_add(2);
                board.s.journaled = 0;
            }
        }
    }

    fn back(&mut self, random: &mut Random) {
        let k = random.below(self.boards[0].s.journaled + 2);
        let [one, other] = [0, 1].map(|at| self.boards[at].back(&self.journals[at], k));
        assert_eq!(one, other);
    }

    fn window(&mut self, random: &mut Random) {
        let chosen = [Memory::Program, Memory::Data][random.below(2) as usize];
        let (start, count) = (random.word().into(), random.below(2_000) as usize);
        let [one, other] = &self.boards;
        let of = |board| {
            let Board { s, p, d, .. }: &Board = board;
            window(s, chosen, p, d, start, count)
        };
        assert_eq!(of(one), of(other));
    }

    fn call(&mut self, random: &mut Random) {
        let (line, port, value) = (random.below(8) as u8, random.below(3) as u8, random.value());
        match random.below(10) {
            0 => self.back(random),
            1 => self.window(random),
            2 => assert!(saved(&self.boards[0]) == saved(&self.boards[1])),
            3 => self
                .boards
                .iter_mut()
                .for_each(|x| x.s = raise(x.s, line).state),
            4 => self
                .boards
                .iter_mut()
                .for_each(|x| set(&mut x.i, port, value).unwrap()),
            5 if random.below(4) == 0 => self.boards.iter_mut().for_each(|x| {
                assert_eq!(assemble(b"EI\nBZ R0, 0", &mut x.p), Ok(2));
            }),
            _ => self.run(random),
        }
    }

    /// All but the locked bytes is alike, and these are as they were.
    fn check(&self, before: &[Board; 2]) {
        let [one, other] = &self.boards;
        assert_eq!(one.s, other.s);
        assert!((&one.p, &one.i, &one.o) == (&other.p, &other.i, &other.o));
        assert!(self.journals[0] == self.journals[1] && self.sheets[0] == self.sheets[1]);
        for at in 0..=0xFFFF_u16 {
            let k = usize::from(at);
            match one.s.locks(at) {
                false => assert_eq!(one.d[k], other.d[k]),
                true => assert_eq!([one.d[k], other.d[k]], [before[0].d[k], before[1].d[k]]),
            }
        }
    }
}

#[test]
fn pairs_that_differ_in_locked_bytes_alone() {
    let mut random = Random::new(0x10CCED);
    let mut stopped = 0;
    for _ in 0..80 {
        let mut pair = Pair::new(&mut random);
        let before = pair.boards.clone();
        assert!(before[0].d != before[1].d);
        for _ in 0..40 {
            pair.call(&mut random);
        }
        pair.check(&before);
        stopped += pair.stopped;
    }
    assert!(stopped > 20, "{stopped}");
}
