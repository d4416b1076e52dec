//! Every function of include/sisa.h in a thread with 128 KiB of stack, the smallest that
//! threads get by default, and how much of it each needs. The calls are those that are
//! hardest for the stack; each says whether it went as it should.

#[allow(dead_code)]
#[path = "../../reference/tests/compare/ffi.rs"]
mod ffi;
#[allow(dead_code)]
#[path = "../../../bench/assembling/src/texts.rs"]
mod texts;

use ffi::{Lent, Named, Sheet, State, Trims, Usage};
use std::thread;

const STACK_BYTES: usize = 128 * 1024;
const MEMORY_BYTES: usize = 65_536;
const PORTS: usize = 256;
const FILE_BYTES: usize = 16 + 2 * MEMORY_BYTES;
const LONG_RUN: u32 = 1_000_000;
const RESET: State = State {
    r: [0; 8],
    pc: 0,
    n: 0,
    journaled: 0,
    board: 0,
    enabled: 0,
    pending: 0,
    line: 0,
    return_address: 0,
    locked: 0,
    first_locked: 0,
    last_locked: 0,
};
/// A range without bytes: each step is tested, and none is stopped.
const TESTED: State = State {
    locked: 1,
    first_locked: 1,
    ..RESET
};
const LOCKED: State = State {
    locked: 1,
    first_locked: 16,
    last_locked: 31,
    ..RESET
};

/// A loop with all 34 kinds of instruction, RETI back to address 0; a semicolon stands
/// for a newline.
const EVERY_KIND: &str =
    "MOVI R7, 3; loop: MOVI R6, next; JALR R5, R6; next: MOVHI R4, 0x5A; IN R3, 9; \
    AND R0, R3, R4; OR R1, R3, R4; XOR R2, R3, R4; NOT R3, R3; ADD R4, R3, R4; SUB R5, R3, R4; \
    SHA R0, R3, R4; SHL R1, R3, R4; CMPLT R2, R3, R4; CMPLE R2, R3, R4; CMPEQ R2, R3, R4; \
    CMPLTU R2, R3, R4; CMPLEU R2, R3, R4; ADDI R3, R3, 31; LD R0, -2(R3); ST 4(R3), R1; \
    LDB R0, -1(R3); STB 3(R4), R1; MUL R0, R3, R4; MULH R1, R3, R4; MULHU R2, R3, R4; \
    DIV R0, R3, R7; DIVU R1, R3, R7; OUT 255, R0; EI; GETIID R2; DI; BZ R7, loop; \
    BNZ R7, last; last: RETI";

/// What a host lends.
struct World {
    program: Vec<u8>,
    memory: Vec<u8>,
    inputs: Vec<u16>,
    outputs: Vec<u16>,
    log: Vec<u64>,
}

impl World {
    fn new(fill: u8) -> World {
        World {
            program: vec![fill; MEMORY_BYTES],
            memory: vec![fill; MEMORY_BYTES],
            inputs: vec![1; PORTS],
            outputs: vec![0; PORTS],
            log: vec![0; LONG_RUN as usize / 16],
        }
    }

    fn with_every_kind() -> World {
        let mut world = World::new(0);
        let text = EVERY_KIND.replace(';', "\n");
        let reply = ffi::assemble(text.as_bytes(), &mut world.program);
        assert_eq!(reply.refusal, 0);
        world
    }

    fn lent(&mut self) -> Lent<'_> {
        Lent {
            program: &mut self.program,
            memory: &mut self.memory,
            inputs: &mut self.inputs,
            outputs: &mut self.outputs,
            log: &mut self.log,
        }
    }
}

/// A call of an export, or many; `goes` says whether it went as it should.
struct Call {
    export: &'static str,
    what: String,
    goes: Box<dyn FnOnce() -> bool + Send>,
}

fn call(
    export: &'static str,
    what: impl Into<String>,
    goes: impl FnOnce() -> bool + Send + 'static,
) -> Call {
    Call {
        export,
        what: what.into(),
        goes: Box::new(goes),
    }
}

/// The board and the range that give this state.
fn named(state: State) -> Named {
    Named {
        board: state.board,
        locked: state.locked,
        first: state.first_locked,
        last: state.last_locked,
    }
}

/// Loads and saves, of full memories, with a range too, and of empty ones.
fn files() -> Vec<Call> {
    let mut calls = Vec::new();
    for (what, fill, length, state) in [
        ("full memories", 7, FILE_BYTES, RESET),
        ("full memories, a range locked", 7, FILE_BYTES, LOCKED),
        ("empty memories", 0, 16, RESET),
    ] {
        let mut world = World::new(fill);
        let mut file = vec![0; FILE_BYTES];
        let reply = ffi::save(state, &world.program, &world.memory, &mut file);
        assert_eq!(reply.length, length);
        let saved = file[..length].to_vec();
        let (program, memory) = (world.program.clone(), world.memory.clone());
        calls.push(call("sisa_load", what, move || {
            ffi::load(&saved, named(state), &mut world.lent()).refusal == 0
        }));
        calls.push(call("sisa_save", what, move || {
            ffi::save(state, &program, &memory, &mut file).length == length
        }));
    }
    calls
}

/// A line with an operator of each rank, from the loosest on, before every bracket.
fn nested() -> String {
    let ranks = "-1|-1&-1<<-1+-1*-";
    let opened = format!("{ranks}(").repeat(16);
    format!(".word {opened}{ranks}z{}\n", ")".repeat(16))
}

/// Texts of 65,536 bytes with their refusals, and one of a byte more.
fn written() -> Vec<(&'static str, u8, Vec<u8>)> {
    let last = format!("{}z:\n", nested());
    let mut deep = texts::given(MEMORY_BYTES - last.len(), 63);
    deep.extend(last.bytes());
    let mut unknown = deep.clone();
    unknown[MEMORY_BYTES - 3] = b'y';
    let named = texts::last_names(MEMORY_BYTES).0;
    let mut all = vec![
        ("64 names on the last lines", 0, named),
        ("64 names, operators in brackets to depth 16", 0, deep),
        ("the same with an unknown name", 11, unknown),
        ("65,537 bytes", 10, texts::used(MEMORY_BYTES + 1)),
    ];
    for (what, text) in texts::hard(MEMORY_BYTES) {
        all.push((what, 0, text));
    }
    all
}

fn assembling() -> Vec<Call> {
    let mut calls = Vec::new();
    for (what, refusal, text) in written() {
        let mut program = vec![7; MEMORY_BYTES];
        calls.push(call("sisa_assemble", what, move || {
            ffi::assemble(&text, &mut program).refusal == refusal
        }));
    }
    calls
}

/// A step of each word, which stands at address 0. The step replies the refusal.
fn every_word(step: impl Fn(&mut World) -> u8) -> bool {
    let mut world = World::new(0);
    (0..=u16::MAX).all(|word| {
        world.program[..2].copy_from_slice(&word.to_le_bytes());
        step(&mut world) == 0
    })
}

fn runs(export: &'static str, run: fn(State, u32, &mut Lent) -> ffi::Run) -> Vec<Call> {
    let mut calls = vec![call(export, "budget 1, every word", move || {
        every_word(|world| run(RESET, 1, &mut world.lent()).refusal)
    })];
    for (budget, start, range) in [
        (100, RESET, ""),
        (2_048, RESET, ""),
        (2_049, RESET, ""),
        (LONG_RUN, RESET, ""),
        (100, TESTED, ", with a range"),
        (LONG_RUN, TESTED, ", with a range"),
    ] {
        let mut world = World::with_every_kind();
        let what = format!("budget {budget}, every kind{range}");
        calls.push(call(export, what, move || {
            let reply = run(start, budget, &mut world.lent());
            (reply.refusal, reply.stop, reply.steps) == (0, 0, budget)
                && reply.usage.kinds.iter().all(|&count| count > 0)
        }));
    }
    calls.push(call(export, "eight lines taken", move || {
        let (mut world, state) = with_lines();
        run(state, 16, &mut world.lent()).usage.taken == 8
    }));
    calls
}

/// A RETI where lines are taken, and all of them pending.
fn with_lines() -> (World, State) {
    let mut world = World::new(0);
    world.program[0x100..0x102].copy_from_slice(&0xC002_u16.to_le_bytes());
    let state = State {
        enabled: 1,
        pending: 255,
        ..RESET
    };
    (world, state)
}

/// Pages of eight trims.
fn pages(export: &'static str, page: fn(Trims, u8, u32, &mut Lent) -> ffi::Page) -> [Call; 2] {
    [
        page_of(export, "8 trims, every kind", RESET, page),
        page_of(export, "8 trims, every kind, with a range", TESTED, page),
    ]
}

fn page_of(
    export: &'static str,
    what: &'static str,
    start: State,
    page: fn(Trims, u8, u32, &mut Lent) -> ffi::Page,
) -> Call {
    let one = World::with_every_kind();
    let mut eight = World {
        program: one.program.repeat(8),
        memory: one.memory.repeat(8),
        inputs: one.inputs.repeat(8),
        outputs: one.outputs.repeat(8),
        log: one.log,
    };
    call(export, what, move || {
        let trims = Trims { states: [start; 8] };
        let reply = page(trims, 8, LONG_RUN, &mut eight.lent());
        let steps: u32 = reply.answers.iter().map(|answer| answer.steps).sum();
        (reply.refusal, steps) == (0, LONG_RUN)
    })
}

fn by_rules_with_journal(state: State, budget: u32, lent: &mut Lent) -> ffi::Run {
    ffi::run_by_rules_with_journal(state, budget, lent, &mut vec![0; budget as usize])
}

fn by_table_with_journal(state: State, budget: u32, lent: &mut Lent) -> ffi::Run {
    ffi::run_by_table_with_journal(state, budget, lent, &mut vec![0; budget as usize])
}

/// Back to the start of a run, so many steps at once.
fn back(steps: u32, at_once: u64) -> Call {
    let mut world = World::with_every_kind();
    let mut journal = vec![0; steps as usize];
    let ran = ffi::run_by_table_with_journal(RESET, steps, &mut world.lent(), &mut journal);
    assert_eq!((ran.refusal, ran.steps), (0, steps));
    let what = format!("{steps} steps, {at_once} at once, every kind");
    call("sisa_step_back", what, move || {
        let (mut state, mut fallen) = (ran.state, 0);
        for _ in 0..u64::from(steps) / at_once {
            let reply = ffi::step_back(state, &mut world.lent(), &journal, at_once);
            if reply.refusal != 0 {
                return false;
            }
            state = reply.state;
            fallen += reply.entries;
        }
        state == RESET && fallen == ran.entries
    })
}

/// Back over eight lines taken.
fn back_over_lines() -> Call {
    let (mut world, start) = with_lines();
    let mut journal = vec![0; 16];
    let ran = ffi::run_by_table_with_journal(start, 16, &mut world.lent(), &mut journal);
    assert_eq!((ran.refusal, ran.steps), (0, 16));
    call("sisa_step_back", "16 steps, eight lines taken", move || {
        ffi::step_back(ran.state, &mut world.lent(), &journal, 16).state == start
    })
}

fn host_steps() -> Vec<Call> {
    let words = call("sisa_host_step", "every word", || {
        every_word(|world| ffi::host_step(&mut RESET.clone(), &mut world.lent()).refusal)
    });
    let line = call("sisa_host_step", "a line taken", || {
        let (mut world, mut state) = with_lines();
        ffi::host_step(&mut state, &mut world.lent()).usage.taken == 1
    });
    vec![words, line]
}

fn feeding() -> Call {
    let counts = Usage {
        kinds: [u64::MAX; 34],
        taken: u64::MAX,
        reads: [1; 8],
        writes: [2; 8],
    };
    let sheet = Sheet {
        kinds: [3; 34],
        taken: 3,
        reads: [4; 8],
        writes: [5; 8],
        runs: 65_534,
    };
    call("sisa_feed", "the last run that a sheet takes", move || {
        ffi::feed(sheet, 0, counts).sheet.runs == 65_535
    })
}

fn instructions() -> Vec<Call> {
    let read = call("sisa_read", "every word", || {
        let assigned = |&word: &u16| ffi::read(word).assigned == 1;
        (0..=u16::MAX).filter(assigned).count() > 32_768
    });
    let write = call("sisa_write", "every kind", || {
        (0..34).all(|kind| ffi::write(kind, 0, 0, 0, 0).refusal == 0)
    });
    vec![read, write]
}

fn panel() -> Vec<Call> {
    let mut world = World::new(7);
    let memory = vec![7; MEMORY_BYTES];
    let set = call("sisa_set_input", "port 255", move || {
        ffi::set_input(&mut world.inputs, 255, 3) == 0
    });
    let window = call("sisa_window", "from a range to the end", move || {
        ffi::window(LOCKED, &[], &memory, 1, 32, MEMORY_BYTES - 32).count == MEMORY_BYTES - 32
    });
    let raise = call("sisa_raise", "every line", || {
        (0..=u8::MAX).all(|line| (ffi::raise(RESET, line).refusal == 16) == (line > 7))
    });
    vec![set, window, raise]
}

fn calls() -> Vec<Call> {
    let mut all = files();
    all.extend(assembling());
    all.extend(runs("sisa_run_by_rules", ffi::run_by_rules));
    all.extend(runs("sisa_run_by_table", ffi::run_by_table));
    all.extend(runs("sisa_run_by_rules_with_journal", by_rules_with_journal));
    all.extend(runs("sisa_run_by_table_with_journal", by_table_with_journal));
    all.extend(pages("sisa_page_by_rules", ffi::page_by_rules));
    all.extend(pages("sisa_page_by_table", ffi::page_by_table));
    all.extend([back(100, 1), back(LONG_RUN, LONG_RUN.into()), back_over_lines()]);
    all.extend(host_steps());
    all.push(feeding());
    all.extend(instructions());
    all.extend(panel());
    all
}

#[test]
fn no_call_needs_128_kib() {
    for Call { export, what, goes } in calls() {
        let (went_well, bytes) = stack::needs(goes);
        println!("{export} {bytes} ({what})");
        assert!(went_well, "{export}, {what}");
        assert!(bytes < STACK_BYTES, "{export}, {what}: {bytes}");
    }
}

/// Here a call that needs more ends the test with a signal.
#[test]
fn every_call_runs_in_a_thread_of_128_kib() {
    for Call { export, what, goes } in calls() {
        let thread = thread::Builder::new().stack_size(STACK_BYTES).spawn(goes);
        let went_well = thread.map(|running| running.join());
        assert!(matches!(went_well, Ok(Ok(true))), "{export}, {what}");
    }
}
