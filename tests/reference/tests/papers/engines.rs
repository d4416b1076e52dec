//! Both engines agree, on random machines and on random lists of calls.

use crate::board::{Board, Engine, ENGINES};
use crate::random::Random;
use crate::words::{unassigned, zero_divisor};
use reference::control::{Table, TABLE};
use reference::machine::State;
use reference::raise::raise;
use reference::run::Reply;
use reference::set::set;

#[test]
fn the_table_is_the_paper_s() {
    let both_e = [
        0x4001, 0x4021, 0x4142, 0x4146, 0x4540, 0x414A, 0x4940, 0x700E,
    ];
    for opcode in 0..8 {
        assert_eq!(TABLE[2 * opcode], both_e[opcode]);
        assert_eq!(TABLE[2 * opcode + 1], both_e[opcode]);
    }
    assert_eq!(
        TABLE[16..22],
        [0x5000, 0x6000, 0x4263, 0x4283, 0x4013, 0x4C00]
    );
    assert_eq!(TABLE[22..24], [0x40A1, 0x40A1]);
    assert_eq!(TABLE[24..26], [0xC001, 0xC001]);
    assert_eq!(TABLE[26..], [0; 6]);
}

#[test]
fn one_step_of_every_word() {
    let mut random = Random::new(0x57E9);
    let mut rules = Board::random(&mut random);
    let mut table = rules.clone();
    for w in 0..=0xFFFF_u16 {
        let mut state = State {
            r: [0; 8],
            pc: random.word() & 0xFFFE,
            n: random.next() as u32,
            ..State::reset()
        };
        for k in 0..8 {
            state.r[k] = random.value();
        }
        for board in [&mut rules, &mut table] {
            board.s = state;
            board.i[0] = w | 1;
            board.put(state.pc, w);
        }
        assert_eq!(
            rules.step(Engine::Rules),
            table.step(Engine::PAPER_TABLE),
            "{w:04X} on {state:?}"
        );
        assert_eq!(rules.i, table.i, "{w:04X}");
    }
    assert!(rules == table);
}

/// Random runs by the rules on what `board` makes of a board, and by the table and
/// on the board that `other` makes of that. They must agree in all but the program.
fn compare_runs(
    seed: u64,
    board: fn(Board) -> Board,
    other: impl Fn(&mut Random, &Board) -> (Table, Board),
) {
    let mut random = Random::new(seed);
    let mut stops = [0; 4];
    let mut total = 0;
    for _ in 0..300 {
        let mut ours = board(Board::random(&mut random));
        let (table, mut theirs) = other(&mut random, &ours);
        let places = random.below(40) as usize;
        let budget = random.below(2_000) as u32;
        let (mut our_log, mut their_log) = (vec![0xEEEE; places], vec![0xEEEE; places]);
        let by_rules = ours.run(Engine::Rules, budget, &mut our_log);
        let by_table = theirs.run(Engine::Table(&table), budget, &mut their_log);
        assert_eq!(by_rules, by_table);
        assert_eq!(our_log, their_log);
        assert!((&ours.d, &ours.i, &ours.o) == (&theirs.d, &theirs.i, &theirs.o));
        if let Reply::Done { stop, steps, .. } = by_rules {
            stops[usize::from(stop)] += 1;
            total += steps;
        }
    }
    assert!(stops.iter().all(|&count| count > 10), "{stops:?}");
    assert!(total > 20_000, "{total}");
}

#[test]
fn random_runs() {
    compare_runs(
        0xC010_0123,
        |board| board,
        |_, board| (TABLE, board.clone()),
    );
}

#[test]
fn random_runs_on_the_single_memory_board() {
    let single = Board::on_single_memory;
    compare_runs(0xC010_0124, single, |_, board| (TABLE, board.clone()));
}

/// The opcodes 0 to 15 in any order.
fn random_order(random: &mut Random) -> [u16; 16] {
    let mut order: [u16; 16] = std::array::from_fn(|k| k as u16);
    random.shuffle(&mut order);
    order
}

#[test]
fn a_reordered_table_runs_reordered_words_alike() {
    let recoding = |random: &mut Random, board: &Board| {
        let order = random_order(random);
        let mut table = [0; 32];
        for (k, &place) in order.iter().enumerate() {
            let place = 2 * usize::from(place);
            table[place..place + 2].copy_from_slice(&TABLE[2 * k..2 * k + 2]);
        }
        let mut recoded = board.clone();
        for high in recoded.p.iter_mut().skip(1).step_by(2) {
            *high = 16 * order[usize::from(*high / 16)] as u8 + *high % 16;
        }
        (table, recoded)
    };
    compare_runs(0x0DE2, |board| board, recoding);
}

/// One call of a list.
enum Call {
    Run { budget: u32, places: usize },
    Set { p: u8, v: u16, length: usize },
    Raise { line: u8 },
}

fn random_call(random: &mut Random) -> Call {
    match random.below(5) {
        4 => Call::Raise {
            line: random.below(10) as u8,
        },
        0 => Call::Set {
            p: random.word() as u8,
            v: random.word(),
            length: if random.below(5) == 0 { 255 } else { 256 },
        },
        // Refused with 6 unless n is 0.
        1 if random.below(4) == 0 => Call::Run {
            budget: u32::MAX,
            places: 0,
        },
        _ => Call::Run {
            budget: random.below(200) as u32,
            places: random.below(12) as usize,
        },
    }
}

/// The plain machine given the same call: Set, or steps until a test holds.
/// It works from the paper's words on lists of calls and has its own log L.
fn plain(board: &mut Board, log: &mut Vec<u64>, call: &Call) -> Result<(u8, u32, usize), u8> {
    match *call {
        Call::Set { length, .. } if length != 256 => Err(1),
        Call::Set { p, v, .. } => {
            board.i[usize::from(p)] = v;
            Ok((0, 0, 0))
        }
        Call::Raise { line } if line > 7 => Err(16),
        Call::Raise { line } => {
            board.s.pending |= 1 << line;
            Ok((0, 0, 0))
        }
        Call::Run { budget, .. } if board.s.n.checked_add(budget).is_none() => Err(6),
        Call::Run { budget, places } => {
            let (n, l) = (board.s.n, log.len());
            let stop = loop {
                if board.s.n - n == budget {
                    break 0;
                }
                let full = log.len() - l == places;
                let before = board.clone();
                match board.step(Engine::Rules) {
                    None if board.fetch_is_locked() => break 4,
                    None if unassigned(board.word()) => break 1,
                    None if zero_divisor(board.word(), &board.s.r) => break 3,
                    None => break 4,
                    Some(stepped) if stepped.entry.is_some() && full => {
                        *board = before;
                        break 2;
                    }
                    Some(stepped) => log.extend(stepped.entry),
                }
            };
            Ok((stop, board.s.n - n, log.len() - l))
        }
    }
}

/// The library given the call, the entries of its log added to `joined`.
fn library(
    board: &mut Board,
    joined: &mut Vec<u64>,
    engine: Engine,
    call: &Call,
) -> Result<(u8, u32, usize), u8> {
    match *call {
        Call::Set { p, v, length } => {
            let lent = &mut board.i[..length];
            set(lent, p, v).map(|()| (0, 0, 0))
        }
        Call::Raise { line } => {
            let raised = raise(board.s, line);
            board.s = raised.state;
            match raised.refusal {
                0 => Ok((0, 0, 0)),
                number => Err(number),
            }
        }
        Call::Run { budget, places } => {
            let mut log = vec![0xEEEE; places];
            match board.run(engine, budget, &mut log) {
                Reply::Refused { number, .. } => {
                    assert!(log.iter().all(|&x| x == 0xEEEE));
                    Err(number)
                }
                Reply::Done {
                    stop,
                    steps,
                    entries,
                    ..
                } => {
                    let entries = entries as usize;
                    joined.extend(&log[..entries]);
                    assert!(log[entries..].iter().all(|&x| x == 0xEEEE));
                    Ok((stop, steps, entries))
                }
            }
        }
    }
}

#[test]
fn random_lists_of_calls() {
    let mut random = Random::new(0x1157);
    for _ in 0..12 {
        let mut start = Board::random(&mut random);
        if random.below(2) == 0 {
            start = start.on_single_memory();
        }
        start.s.locked = random.below(2) as u8;
        start.s.first_locked = random.word();
        start.s.last_locked = start.s.first_locked.saturating_add(1_000);
        let mut machine = start.clone();
        let mut l = Vec::new();
        // By the rules, by the table, and by either as it falls.
        let mut boards = [start.clone(), start.clone(), start];
        let mut joined = [Vec::new(), Vec::new(), Vec::new()];
        for _ in 0..12 {
            let call = random_call(&mut random);
            let expected = plain(&mut machine, &mut l, &call);
            let mixed = ENGINES[random.below(3) as usize];
            let engines = [Engine::Rules, Engine::PAPER_TABLE, mixed];
            for (k, engine) in engines.into_iter().enumerate() {
                assert_eq!(
                    library(&mut boards[k], &mut joined[k], engine, &call),
                    expected
                );
                assert!(boards[k] == machine);
                assert_eq!(joined[k], l);
            }
        }
    }
}

#[test]
fn a_run_cut_in_pieces_is_the_same_run() {
    let mut random = Random::new(0xC07);
    for _ in 0..40 {
        let start = Board::random(&mut random);
        let mut whole = start.clone();
        let mut pieces = start;
        let mut log = vec![0; 600];
        let reply = whole.run(Engine::Rules, 600, &mut log);
        let Reply::Done { steps, entries, .. } = reply else {
            panic!("refused")
        };
        let (mut done, mut joined) = (0, Vec::<u64>::new());
        while done < steps {
            let mut part = vec![0; 600];
            let budget = (1 + random.below(50) as u32).min(steps - done);
            match pieces.run(ENGINES[random.below(3) as usize], budget, &mut part) {
                Reply::Done {
                    stop: 0,
                    steps,
                    entries,
                    ..
                } => {
                    done += steps;
                    joined.extend(&part[..entries as usize]);
                }
                other => panic!("{other:?}"),
            }
        }
        assert!(pieces == whole);
        assert_eq!(joined, log[..entries as usize]);
    }
}
