//! A host in Rust: loads a trim, sets three inputs, runs it, shows the corrections, saves both memories and loads them
//! again; then takes the first steps one by one, steps back from the end of a run and goes forward again; presses the
//! key for a second trim, if one is named; runs a third, which changes its own code, on the single-memory board, if one
//! is named; turns a knob for a fourth, if one is named; runs the first and a fifth as a page, if one is named; locks
//! bytes of a sixth, if one is named; and shows the usage sheet of it all. It prints what host.c prints.
//!
//!     rustc --edition 2021 -O examples/host.rs -L target/staticlib -l static=sisa -o target/host_rs
//!     target/host_rs examples/gain.trim examples/key.trim examples/fanout.trim examples/knob.trim examples/endless.trim examples/curve.trim

use std::process::ExitCode;

/// The C interface of libsisa.a, as far as it is used here (include/sisa.h).
mod ffi {
    #[repr(C)]
    #[derive(Clone, Copy)]
    pub struct State {
        pub r: [u16; 8],
        pub pc: u16,
        pub n: u32,
        pub journaled: u64,
        pub board: u8,
        pub enabled: u8,
        pub pending: u8,
        pub line: u8,
        pub return_address: u16,
        pub locked: u8,
        pub first_locked: u16,
        pub last_locked: u16,
    }

    #[repr(C)]
    pub struct Load {
        pub state: State,
        pub refusal: u8,
    }

    #[repr(C)]
    pub struct Saved {
        pub state: State,
        pub refusal: u8,
        pub length: usize,
    }

    #[repr(C)]
    #[derive(Clone, Copy)]
    pub struct Usage {
        pub kinds: [u64; 34],
        pub taken: u64,
        pub reads: [u64; 8],
        pub writes: [u64; 8],
    }

    #[repr(C)]
    #[derive(Clone, Copy)]
    pub struct Sheet {
        pub kinds: [u64; 34],
        pub taken: u64,
        pub reads: [u64; 8],
        pub writes: [u64; 8],
        pub runs: u16,
    }

    impl State {
        pub const RESET: State = State {
            r: [0; 8],
            pc: 0,
            n: 0,
            journaled: 0,
            board: 0,
            enabled: 0,
            pending: 0,
            line: 0,
            return_address: 0,
            locked: 0,
            first_locked: 0,
            last_locked: 0,
        };
    }

    impl Sheet {
        pub const EMPTY: Sheet = Sheet {
            kinds: [0; 34],
            taken: 0,
            reads: [0; 8],
            writes: [0; 8],
            runs: 0,
        };
    }

    #[repr(C)]
    pub struct Fed {
        pub sheet: Sheet,
        pub refusal: u8,
    }

    #[repr(C)]
    pub struct Run {
        pub state: State,
        pub refusal: u8,
        pub stop: u8,
        pub steps: u32,
        pub entries: u64,
        pub ticks: u64,
        pub usage: Usage,
    }

    #[repr(C)]
    pub struct Answer {
        pub refusal: u8,
        pub stop: u8,
        pub steps: u32,
        pub entries: u64,
        pub ticks: u64,
        pub usage: Usage,
    }

    #[repr(C)]
    pub struct Trims {
        pub states: [State; 8],
    }

    #[repr(C)]
    pub struct Page {
        pub trims: Trims,
        pub refusal: u8,
        pub answers: [Answer; 8],
    }

    #[repr(C)]
    pub struct Back {
        pub state: State,
        pub refusal: u8,
        pub entries: u64,
    }

    #[repr(C)]
    pub struct Raised {
        pub state: State,
        pub refusal: u8,
    }

    #[repr(C)]
    pub struct Window {
        pub start: usize,
        pub count: usize,
    }

    #[rustfmt::skip]
    unsafe extern "C" {
        pub fn sisa_load(
            file: *const u8, file_len: usize, board: u8, locked: u8, first: u16, last: u16,
            program: *mut u8, program_len: usize, memory: *mut u8, memory_len: usize,
            inputs: *mut u16, inputs_len: usize, outputs: *mut u16, outputs_len: usize,
        ) -> Load;
        pub fn sisa_save(
            state: State, program: *const u8, program_len: usize, memory: *const u8, memory_len: usize,
            destination: *mut u8, destination_len: usize,
        ) -> Saved;
        pub fn sisa_set_input(inputs: *mut u16, inputs_len: usize, port: u8, value: u16) -> u8;
        pub fn sisa_raise(state: State, line: u8) -> Raised;
        pub fn sisa_run_by_rules(
            state: State, program: *const u8, program_len: usize, memory: *mut u8, memory_len: usize,
            inputs: *mut u16, inputs_len: usize, outputs: *mut u16, outputs_len: usize,
            budget: u32, log: *mut u64, log_len: usize,
        ) -> Run;
        pub fn sisa_run_by_table_with_journal(
            state: State, program: *const u8, program_len: usize, memory: *mut u8, memory_len: usize,
            inputs: *mut u16, inputs_len: usize, outputs: *mut u16, outputs_len: usize,
            budget: u32, log: *mut u64, log_len: usize, journal: *mut u64, journal_len: usize,
        ) -> Run;
        pub fn sisa_page_by_table(
            trims: Trims, count: u8, programs: *const u8, programs_len: usize, memories: *mut u8, memories_len: usize,
            inputs: *mut u16, inputs_len: usize, outputs: *mut u16, outputs_len: usize,
            budget: u32, log: *mut u64, log_len: usize,
        ) -> Page;
        pub fn sisa_step_back(
            state: State, program: *const u8, program_len: usize, memory: *mut u8, memory_len: usize,
            inputs: *mut u16, inputs_len: usize, outputs: *mut u16, outputs_len: usize,
            journal: *const u64, journal_len: usize, k: u64,
        ) -> Back;
        pub fn sisa_host_step(
            state: *mut State, program: *const u8, program_len: usize, memory: *mut u8, memory_len: usize,
            inputs: *mut u16, inputs_len: usize, outputs: *mut u16, outputs_len: usize,
            log: *mut u64, log_len: usize,
        ) -> Answer;
        pub fn sisa_window(
            state: State, program: *const u8, program_len: usize, memory: *const u8, memory_len: usize,
            of_data: u8, start: usize, count: usize,
        ) -> Window;
        pub fn sisa_feed(sheet: Sheet, run_refusal: u8, usage: Usage) -> Fed;
    }
}

use ffi::{Sheet, State, Usage};

const MEMORY_BYTES: usize = 65_536;
const PORTS: usize = 256;
const BUDGET: u32 = 1_000;
const HOST_STEPS: u32 = 5;
const BACK_STEPS: u32 = 5;
/// The boards, by their numbers.
const TWO_MEMORIES: u8 = 0;
const SINGLE_MEMORY: u8 = 1;
const KNOB: u8 = 3;
const KNOB_PORT: u8 = 16;
const WAIT_STEPS: u32 = 10;
/// Bytes of data memory that a load locks, first to last; none where `locked` is 0.
#[derive(Clone, Copy)]
struct Range {
    locked: u8,
    first: u16,
    last: u16,
}

const NONE: Range = Range {
    locked: 0,
    first: 0,
    last: 0,
};
const CORRECTIONS: Range = Range {
    locked: 1,
    first: 16,
    last: 23,
};
/// No file that a save writes is longer.
const FILE_BYTES: usize = 16 + 2 * MEMORY_BYTES;

/// A number of document 01's refusal table.
#[derive(Debug)]
struct Refusal(u8);

/// Why a run stopped, its steps, the entries it wrote, its ticks and its counts.
struct Report {
    stop: u8,
    steps: u32,
    entries: usize,
    ticks: u64,
    usage: Usage,
}

impl From<ffi::Answer> for Report {
    fn from(answer: ffi::Answer) -> Report {
        Report {
            stop: answer.stop,
            steps: answer.steps,
            entries: answer.entries as usize,
            ticks: answer.ticks,
            usage: answer.usage,
        }
    }
}

#[rustfmt::skip]
const KINDS: [&str; 34] = [
    "AND", "OR", "XOR", "NOT", "ADD", "SUB", "SHA", "SHL", "CMPLT", "CMPLE", "CMPEQ", "CMPLTU", "CMPLEU", "ADDI", "LD", "ST", "LDB",
    "STB", "JALR", "BZ", "BNZ", "MOVI", "MOVHI", "IN", "OUT", "MUL", "MULH", "MULHU", "DIV", "DIVU", "EI", "DI", "RETI",
    "GETIID",
];

/// Adds what an accepted run returned.
fn feed(sheet: &mut Sheet, report: &Report) -> Result<(), Refusal> {
    // SAFETY: the function takes its arguments by value.
    let fed = unsafe { ffi::sisa_feed(*sheet, 0, report.usage) };
    *sheet = fed.sheet;
    accepted(fed.refusal, ())
}

/// The kinds that were done, the lines taken, and the registers.
fn print_sheet(sheet: &Sheet) {
    println!("sheet of {} runs", sheet.runs);
    let rows = KINDS
        .iter()
        .zip(sheet.kinds)
        .chain([(&"taken", sheet.taken)]);
    for (what, steps) in rows.filter(|row| row.1 != 0) {
        println!("{what:<6} {steps:>6} steps");
    }
    for (j, (reads, writes)) in sheet.reads.iter().zip(sheet.writes).enumerate() {
        println!("R{j}     {reads:>6} reads {writes:>6} writes");
    }
}

fn accepted<T>(refusal: u8, value: T) -> Result<T, Refusal> {
    if refusal == 0 {
        Ok(value)
    } else {
        Err(Refusal(refusal))
    }
}

/// The registers, memories and ports of one machine.
struct Machine {
    state: State,
    program: Vec<u8>,
    memory: Vec<u8>,
    inputs: Vec<u16>,
    outputs: Vec<u16>,
}

impl Machine {
    fn load(file: &[u8], board: u8, range: Range) -> Result<Machine, Refusal> {
        let (mut program, mut memory) = (vec![0; MEMORY_BYTES], vec![0; MEMORY_BYTES]);
        let (mut inputs, mut outputs) = (vec![0; PORTS], vec![0; PORTS]);
        // SAFETY: each pointer and length is of one slice, and no two slices overlap.
        let reply = unsafe {
            ffi::sisa_load(
                file.as_ptr(),
                file.len(),
                board,
                range.locked,
                range.first,
                range.last,
                program.as_mut_ptr(),
                program.len(),
                memory.as_mut_ptr(),
                memory.len(),
                inputs.as_mut_ptr(),
                inputs.len(),
                outputs.as_mut_ptr(),
                outputs.len(),
            )
        };
        accepted(
            reply.refusal,
            Machine {
                state: reply.state,
                program,
                memory,
                inputs,
                outputs,
            },
        )
    }

    /// The trim file of both memories, on the single-memory board of data memory.
    fn save(&mut self) -> Result<Vec<u8>, Refusal> {
        let mut file = vec![0; FILE_BYTES];
        // SAFETY: each pointer and length is of one slice, and no two slices overlap.
        let reply = unsafe {
            ffi::sisa_save(
                self.state,
                self.program.as_ptr(),
                self.program.len(),
                self.memory.as_ptr(),
                self.memory.len(),
                file.as_mut_ptr(),
                file.len(),
            )
        };
        self.state = reply.state;
        file.truncate(reply.length);
        accepted(reply.refusal, file)
    }

    /// The range that is locked.
    fn range(&self) -> Range {
        Range {
            locked: self.state.locked,
            first: self.state.first_locked,
            last: self.state.last_locked,
        }
    }

    /// Data memory with its locked bytes zero.
    fn unlocked(&self) -> Vec<u8> {
        let mut memory = self.memory.clone();
        let Range {
            locked,
            first,
            last,
        } = self.range();
        if locked != 0 {
            memory[first.into()..=last.into()].fill(0);
        }
        memory
    }

    /// How many bytes a window on data memory shows.
    fn window(&self, start: usize, count: usize) -> usize {
        // SAFETY: each pointer and length is of one slice, and no two slices overlap.
        let window = unsafe {
            ffi::sisa_window(
                self.state,
                self.program.as_ptr(),
                self.program.len(),
                self.memory.as_ptr(),
                self.memory.len(),
                1,
                start,
                count,
            )
        };
        window.count
    }

    fn set_input(&mut self, port: u8, value: u16) -> Result<(), Refusal> {
        // SAFETY: the pointer and the length are of one slice.
        let refusal = unsafe {
            ffi::sisa_set_input(self.inputs.as_mut_ptr(), self.inputs.len(), port, value)
        };
        accepted(refusal, ())
    }

    /// Port 0 is set before each run: reading port 1, the key's data, sets it to 0, also where the two are knobs.
    fn set_level(&mut self) -> Result<(), Refusal> {
        self.set_input(0, 500)
    }

    fn set_knobs(&mut self) -> Result<(), Refusal> {
        self.set_level()?;
        self.set_input(1, 320)?;
        self.set_input(2, 20)?;
        println!("inputs: port 0 level 500, port 1 gain 320/256, port 2 lift 20");
        Ok(())
    }

    fn raise(&mut self, line: u8) -> Result<(), Refusal> {
        // SAFETY: the function takes its arguments by value.
        let reply = unsafe { ffi::sisa_raise(self.state, line) };
        self.state = reply.state;
        accepted(reply.refusal, ())
    }

    fn run_by_rules(&mut self, budget: u32, log: &mut [u64]) -> Result<Report, Refusal> {
        // SAFETY: each pointer and length is of one slice, and no two slices overlap.
        let reply = unsafe {
            ffi::sisa_run_by_rules(
                self.state,
                self.program.as_ptr(),
                self.program.len(),
                self.memory.as_mut_ptr(),
                self.memory.len(),
                self.inputs.as_mut_ptr(),
                self.inputs.len(),
                self.outputs.as_mut_ptr(),
                self.outputs.len(),
                budget,
                log.as_mut_ptr(),
                log.len(),
            )
        };
        self.reported(reply)
    }

    fn run_by_table_with_journal(
        &mut self,
        budget: u32,
        log: &mut [u64],
        journal: &mut [u64],
    ) -> Result<Report, Refusal> {
        // SAFETY: each pointer and length is of one slice, and no two slices overlap.
        let reply = unsafe {
            ffi::sisa_run_by_table_with_journal(
                self.state,
                self.program.as_ptr(),
                self.program.len(),
                self.memory.as_mut_ptr(),
                self.memory.len(),
                self.inputs.as_mut_ptr(),
                self.inputs.len(),
                self.outputs.as_mut_ptr(),
                self.outputs.len(),
                budget,
                log.as_mut_ptr(),
                log.len(),
                journal.as_mut_ptr(),
                journal.len(),
            )
        };
        self.reported(reply)
    }

    fn reported(&mut self, reply: ffi::Run) -> Result<Report, Refusal> {
        self.state = reply.state;
        accepted(
            reply.refusal,
            Report {
                stop: reply.stop,
                steps: reply.steps,
                entries: reply.entries as usize,
                ticks: reply.ticks,
                usage: reply.usage,
            },
        )
    }

    /// How many log entries fall away.
    fn step_back(&mut self, journal: &[u64], steps: u32) -> Result<u64, Refusal> {
        // SAFETY: each pointer and length is of one slice, and no two slices overlap.
        let reply = unsafe {
            ffi::sisa_step_back(
                self.state,
                self.program.as_ptr(),
                self.program.len(),
                self.memory.as_mut_ptr(),
                self.memory.len(),
                self.inputs.as_mut_ptr(),
                self.inputs.len(),
                self.outputs.as_mut_ptr(),
                self.outputs.len(),
                journal.as_ptr(),
                journal.len(),
                steps.into(),
            )
        };
        self.state = reply.state;
        accepted(reply.refusal, reply.entries)
    }

    /// A run by the table with budget 1.
    fn host_step(&mut self, log: &mut [u64]) -> Result<Report, Refusal> {
        // SAFETY: each pointer and length is of one slice, the state is a valid one, and none of them overlap.
        let reply = unsafe {
            ffi::sisa_host_step(
                &mut self.state,
                self.program.as_ptr(),
                self.program.len(),
                self.memory.as_mut_ptr(),
                self.memory.len(),
                self.inputs.as_mut_ptr(),
                self.inputs.len(),
                self.outputs.as_mut_ptr(),
                self.outputs.len(),
                log.as_mut_ptr(),
                log.len(),
            )
        };
        accepted(reply.refusal, reply.into())
    }

    fn print(&self, title: &str) {
        let State { r, pc, n, .. } = self.state;
        let registers: Vec<String> = r.iter().map(|x| format!("{x:04X}")).collect();
        println!("{title}: pc {pc:04X}, n {n}, r {}", registers.join(" "));
    }

    /// An entry of the log is n before the step, the port and the value, from the high bits to the low. An output port
    /// holds the value last written.
    fn print_corrections(&self, log: &[u64]) {
        for entry in log {
            let (n, port, value) = (entry >> 24, (entry >> 16 & 255) as usize, entry & 65_535);
            println!(
                "log: n {n}, port {port}, value {value}; the output now holds {}",
                self.outputs[port]
            );
        }
    }
}

/// The elements of all, one after the other.
fn joined<T: Copy>(parts: &[Machine], of: impl Fn(&Machine) -> &Vec<T>) -> Vec<T> {
    parts.iter().flat_map(|part| of(part).to_vec()).collect()
}

/// The states of up to eight.
fn trims_of(machines: &[Machine]) -> ffi::Trims {
    let mut states = [State::RESET; 8];
    for (state, machine) in states.iter_mut().zip(machines) {
        *state = machine.state;
    }
    ffi::Trims { states }
}

/// Runs up to eight machines as a page, by the table. Their memories and ports are lent joined.
fn run_page(
    machines: &mut [Machine],
    budget: u32,
    log: &mut [u64],
) -> Result<Vec<Report>, Refusal> {
    let programs = joined(machines, |machine| &machine.program);
    let mut memories = joined(machines, |machine| &machine.memory);
    let mut inputs = joined(machines, |machine| &machine.inputs);
    let mut outputs = joined(machines, |machine| &machine.outputs);
    // SAFETY: each pointer and length is of one slice, and no two slices overlap.
    let reply = unsafe {
        ffi::sisa_page_by_table(
            trims_of(machines),
            machines.len() as u8,
            programs.as_ptr(),
            programs.len(),
            memories.as_mut_ptr(),
            memories.len(),
            inputs.as_mut_ptr(),
            inputs.len(),
            outputs.as_mut_ptr(),
            outputs.len(),
            budget,
            log.as_mut_ptr(),
            log.len(),
        )
    };
    for (i, machine) in machines.iter_mut().enumerate() {
        machine.state = reply.trims.states[i];
        machine.memory = memories[i * MEMORY_BYTES..][..MEMORY_BYTES].to_vec();
        machine.inputs = inputs[i * PORTS..][..PORTS].to_vec();
        machine.outputs = outputs[i * PORTS..][..PORTS].to_vec();
    }
    let answers = reply.answers.into_iter().take(machines.len());
    accepted(reply.refusal, answers.map(Report::from).collect())
}

/// Feeds and shows a run of a machine that was lent this log.
fn show(
    sheet: &mut Sheet,
    title: &str,
    run: &Report,
    machine: &Machine,
    log: &[u64],
) -> Result<(), Refusal> {
    feed(sheet, run)?;
    println!(
        "{title}: stop {}, steps {}, entries {}, ticks {}",
        run.stop, run.steps, run.entries, run.ticks
    );
    machine.print_corrections(&log[..run.entries]);
    machine.print("state");
    Ok(())
}

/// A machine, the log that its runs are lent, and the sheet that they are fed to.
struct Host {
    machine: Machine,
    log: [u64; 64],
    sheet: Sheet,
}

impl Host {
    fn show_run(&mut self, title: &str, run: &Report) -> Result<(), Refusal> {
        show(&mut self.sheet, title, run, &self.machine, &self.log)
    }

    /// Saves what the trim left and loads it, for the same board and with the same range, into memories of its own.
    /// Locked bytes are zero then.
    fn save_and_load(&mut self) -> Result<(), Refusal> {
        let saved = self.machine.save()?;
        let range = self.machine.range();
        let again = Machine::load(&saved, self.machine.state.board, range)?;
        let same = again.program == self.machine.program && again.memory == self.machine.unlocked();
        let but = match range.locked {
            0 => "",
            _ => " but for the locked bytes, which are zero",
        };
        println!(
            "saved {} bytes, loaded again: {} memories{but}",
            saved.len(),
            if same { "equal" } else { "other" }
        );
        Ok(())
    }

    fn step_by_step(&mut self) -> Result<(), Refusal> {
        for _ in 0..HOST_STEPS {
            let step = self.machine.host_step(&mut self.log)?;
            feed(&mut self.sheet, &step)?;
            if step.steps == 0 {
                println!("no step: refusal 0, stop {}", step.stop);
                break;
            }
            self.machine.print("host step");
        }
        Ok(())
    }

    /// A run that keeps a journal, its last steps taken back, and as many steps again: the inputs are the same, so the
    /// log entries are too. The sheet has those steps twice.
    fn back_and_forward(&mut self) -> Result<(), Refusal> {
        let mut journal = [0; BUDGET as usize];
        let run = self.run_with_journal(BUDGET, &mut journal)?;
        self.show_run("run by the table, with a journal", &run)?;
        let steps = run.steps.min(BACK_STEPS);
        self.step_back(&journal, steps)?;
        let again = self.run_with_journal(steps, &mut journal)?;
        self.show_run("forward again", &again)
    }

    /// Shows the steps of a run taken back.
    fn step_back(&mut self, journal: &[u64], steps: u32) -> Result<(), Refusal> {
        let entries = self.machine.step_back(journal, steps)?;
        println!("back: steps {steps}, entries fallen away {entries}");
        self.machine.print("state");
        Ok(())
    }

    /// Presses the key for a trim that waits for it. Reading the data takes the key: the status is 0 after that. Taking
    /// the steps back gives the status what it was before the read.
    fn press_key(&mut self, file: &[u8]) -> Result<(), Refusal> {
        self.machine = Machine::load(file, TWO_MEMORIES, NONE)?;
        self.machine.set_input(0, 1)?;
        self.machine.set_input(1, 65)?;
        self.print_key("key pressed");
        let mut journal = [0; BUDGET as usize];
        let run = self.run_with_journal(BUDGET, &mut journal)?;
        self.show_run("run by the table, with a journal", &run)?;
        self.print_key("key taken");
        self.step_back(&journal, run.steps)?;
        self.print_key("key given back");
        Ok(())
    }

    fn print_key(&self, title: &str) {
        let inputs = &self.machine.inputs;
        println!(
            "{title}: port 0 status {}, port 1 data {}",
            inputs[0], inputs[1]
        );
    }

    /// Runs a trim that changes its own code, on the single-memory board. A save has the code as it is then, and taking
    /// the steps back gives the code back too.
    fn change_code(&mut self, file: &[u8]) -> Result<(), Refusal> {
        self.machine = Machine::load(file, SINGLE_MEMORY, NONE)?;
        self.machine.set_level()?;
        self.print_code("single-memory board");
        let mut journal = [0; BUDGET as usize];
        let run = self.run_with_journal(BUDGET, &mut journal)?;
        self.show_run("run by the table, with a journal", &run)?;
        self.print_code("code changed");
        self.save_and_load()?;
        self.step_back(&journal, run.steps)?;
        self.print_code("code given back");
        Ok(())
    }

    /// The word at address 8, in data memory, where the single-memory board fetches its instructions.
    fn print_code(&self, title: &str) {
        let memory = &self.machine.memory;
        let word = u16::from_le_bytes([memory[8], memory[9]]);
        println!("{title}: the word at 0008 is {word:04X}");
    }

    /// Runs a trim that waits for a knob, turns it, and goes on: the line is taken before the next instruction, and the
    /// trim's handler reads the knob. Taking the steps back gives the line its bit again.
    fn wait_for_knob(&mut self, file: &[u8]) -> Result<(), Refusal> {
        self.machine = Machine::load(file, TWO_MEMORIES, NONE)?;
        let mut journal = [0; BUDGET as usize];
        let run = self.run_with_journal(WAIT_STEPS, &mut journal)?;
        self.show_run("run by the table, with a journal", &run)?;
        self.print_lines("waiting for a knob");
        self.turn_knob()?;
        self.print_lines("knob turned");
        let run = self.run_with_journal(BUDGET, &mut journal)?;
        self.show_run("run by the table, with a journal", &run)?;
        self.print_lines("line taken");
        self.step_back(&journal, run.steps)?;
        self.print_lines("line given back");
        Ok(())
    }

    /// The knob's input has its position, and its line is raised.
    fn turn_knob(&mut self) -> Result<(), Refusal> {
        self.machine.set_input(KNOB_PORT, 700)?;
        self.machine.raise(KNOB)
    }

    fn print_lines(&self, title: &str) {
        let State {
            enabled,
            pending,
            line,
            return_address,
            ..
        } = self.machine.state;
        println!("{title}: enabled {enabled}, pending {pending:02X}, line {line}, return address {return_address:04X}");
    }

    /// Runs two trims as a page, the first with its knobs set. What it leaves of the budget goes to the second. Each has
    /// its half of the log.
    fn run_two(&mut self, first: &[u8], second: &[u8]) -> Result<(), Refusal> {
        let mut machines = [
            Machine::load(first, TWO_MEMORIES, NONE)?,
            Machine::load(second, TWO_MEMORIES, NONE)?,
        ];
        machines[0].set_knobs()?;
        let runs = run_page(&mut machines, BUDGET, &mut self.log)?;
        println!("page by the table: trims 2, budget {BUDGET}");
        let parts = self.log.chunks(self.log.len() / 2);
        for (i, ((machine, run), part)) in machines.iter().zip(&runs).zip(parts).enumerate() {
            show(&mut self.sheet, &format!("trim {i}"), run, machine, part)?;
        }
        Ok(())
    }

    /// Locks the corrections of a curve, which follow it in data memory. The run stops where the trim would read one, and
    /// neither a window nor a saved file shows them.
    fn lock_corrections(&mut self, file: &[u8]) -> Result<(), Refusal> {
        self.machine = Machine::load(file, TWO_MEMORIES, CORRECTIONS)?;
        let Range { first, last, .. } = self.machine.range();
        println!("locked: bytes {first:04X} to {last:04X}");
        let mut journal = [0; BUDGET as usize];
        let run = self.run_with_journal(BUDGET, &mut journal)?;
        self.show_run("run by the table, with a journal", &run)?;
        self.print_window(0, first.into());
        self.print_window(first.into(), (last - first + 1).into());
        self.save_and_load()
    }

    fn print_window(&self, start: usize, count: usize) {
        let shown = self.machine.window(start, count);
        println!("window on {count} bytes from {start:04X}: shows {shown}");
    }

    fn run_with_journal(&mut self, budget: u32, journal: &mut [u64]) -> Result<Report, Refusal> {
        self.machine
            .run_by_table_with_journal(budget, &mut self.log, journal)
    }
}

/// With up to five more files: for the key, for the single-memory board, for the knob, for the page, for the range.
fn host(file: &[u8], more: &[Vec<u8>]) -> Result<(), Refusal> {
    let mut host = Host {
        machine: Machine::load(file, TWO_MEMORIES, NONE)?,
        log: [0; 64],
        sheet: Sheet::EMPTY,
    };
    let reset = host.machine.state;
    host.machine.set_knobs()?;
    let run = host.machine.run_by_rules(BUDGET, &mut host.log)?;
    host.show_run("run by the rules", &run)?;
    host.save_and_load()?;
    // Twice from a reset state again; memory and outputs are as they were left.
    host.machine.state = reset;
    host.machine.set_level()?;
    host.step_by_step()?;
    host.machine.state = reset;
    host.machine.set_level()?;
    host.back_and_forward()?;
    if let Some(key) = more.first() {
        host.press_key(key)?;
    }
    if let Some(fanout) = more.get(1) {
        host.change_code(fanout)?;
    }
    if let Some(knob) = more.get(2) {
        host.wait_for_knob(knob)?;
    }
    if let Some(other) = more.get(3) {
        host.run_two(file, other)?;
    }
    if let Some(curve) = more.get(4) {
        host.lock_corrections(curve)?;
    }
    print_sheet(&host.sheet);
    Ok(())
}

fn main() -> ExitCode {
    let files: Result<Vec<_>, _> = std::env::args().skip(1).map(std::fs::read).collect();
    let (file, more) = match files.as_deref() {
        Ok([file, more @ ..]) if more.len() < 6 => (file, more),
        _ => {
            eprintln!("usage: host_rs FILE.trim [KEY.trim [FANOUT.trim [KNOB.trim [OTHER.trim [CURVE.trim]]]]]");
            return ExitCode::from(2);
        }
    };
    match host(file, more) {
        Ok(()) => ExitCode::SUCCESS,
        Err(Refusal(number)) => {
            println!("refused: {number}");
            ExitCode::FAILURE
        }
    }
}
