//! The library's exports as include/sisa.h declares them, and safe functions
//! around them.
//!
//! Nothing checks the declarations against the library: names, order and types
//! must be the header's. It asks of a caller that no pointer is null, that each
//! length is its slice's and that no two slices overlap. Rust's slices meet
//! that: an empty one's pointer dangles but isn't null, and slices borrowed
//! as mutable don't overlap. Every other value of every argument is allowed.

/// `SisaState`
#[repr(C)]
#[derive(Clone, Copy, Debug, PartialEq, Eq)]
pub struct State {
    pub r: [u16; 8],
    pub pc: u16,
    pub n: u32,
    pub journaled: u64,
    pub board: u8,
    pub enabled: u8,
    pub pending: u8,
    pub line: u8,
    pub return_address: u16,
    pub locked: u8,
    pub first_locked: u16,
    pub last_locked: u16,
}

/// What a load names: the board, and a range to be locked.
#[derive(Clone, Copy, Debug, PartialEq, Eq)]
pub struct Named {
    pub board: u8,
    pub locked: u8,
    pub first: u16,
    pub last: u16,
}

/// `SisaLoad`
#[repr(C)]
#[derive(Clone, Copy, Debug, PartialEq, Eq)]
pub struct Load {
    pub state: State,
    pub refusal: u8,
}

/// `SisaUsage`
#[repr(C)]
#[derive(Clone, Copy, Debug, PartialEq, Eq)]
pub struct Usage {
    pub kinds: [u64; 34],
    pub taken: u64,
    pub reads: [u64; 8],
    pub writes: [u64; 8],
}

/// `SisaSheet`
#[repr(C)]
#[derive(Clone, Copy, Debug, PartialEq, Eq)]
pub struct Sheet {
    pub kinds: [u64; 34],
    pub taken: u64,
    pub reads: [u64; 8],
    pub writes: [u64; 8],
    pub runs: u16,
}

/// `SisaFed`
#[repr(C)]
#[derive(Clone, Copy, Debug, PartialEq, Eq)]
pub struct Fed {
    pub sheet: Sheet,
    pub refusal: u8,
}

/// `SisaRun`
#[repr(C)]
#[derive(Clone, Copy, Debug, PartialEq, Eq)]
pub struct Run {
    pub state: State,
    pub refusal: u8,
    pub stop: u8,
    pub steps: u32,
    pub entries: u64,
    pub ticks: u64,
    pub usage: Usage,
}

/// `SisaAnswer`
#[repr(C)]
#[derive(Clone, Copy, Debug, PartialEq, Eq)]
pub struct Answer {
    pub refusal: u8,
    pub stop: u8,
    pub steps: u32,
    pub entries: u64,
    pub ticks: u64,
    pub usage: Usage,
}

/// `SisaBack`
#[repr(C)]
#[derive(Clone, Copy, Debug, PartialEq, Eq)]
pub struct Back {
    pub state: State,
    pub refusal: u8,
    pub entries: u64,
}

impl Run {
    /// As a host step replies it.
    pub fn without_state(self) -> Answer {
        Answer {
            refusal: self.refusal,
            stop: self.stop,
            steps: self.steps,
            entries: self.entries,
            ticks: self.ticks,
            usage: self.usage,
        }
    }
}

/// `SisaTrims`
#[repr(C)]
#[derive(Clone, Copy, Debug, PartialEq, Eq)]
pub struct Trims {
    pub states: [State; 8],
}

/// `SisaPage`
#[repr(C)]
#[derive(Clone, Copy, Debug, PartialEq, Eq)]
pub struct Page {
    pub trims: Trims,
    pub refusal: u8,
    pub answers: [Answer; 8],
}

/// `SisaRaised`
#[repr(C)]
#[derive(Clone, Copy, Debug, PartialEq, Eq)]
pub struct Raised {
    pub state: State,
    pub refusal: u8,
}

/// `SisaInstruction`
#[repr(C)]
#[derive(Clone, Copy, Debug, PartialEq, Eq)]
pub struct Instruction {
    pub assigned: u8,
    pub kind: u8,
    pub a: u8,
    pub b: u8,
    pub d: u8,
    pub n: i16,
    pub reads: u8,
    pub writes: u8,
}

/// `SisaWord`
#[repr(C)]
#[derive(Clone, Copy, Debug, PartialEq, Eq)]
pub struct Word {
    pub refusal: u8,
    pub word: u16,
}

/// `SisaWindow`
#[repr(C)]
#[derive(Clone, Copy, Debug, PartialEq, Eq)]
pub struct Window {
    pub start: usize,
    pub count: usize,
}

/// `SisaSaved`
#[repr(C)]
#[derive(Clone, Copy, Debug, PartialEq, Eq)]
pub struct Saved {
    pub state: State,
    pub refusal: u8,
    pub length: usize,
}

/// `SisaAssembly`
#[repr(C)]
#[derive(Clone, Copy, Debug, PartialEq, Eq)]
pub struct Assembly {
    pub refusal: u8,
    pub line: u32,
    pub words: u32,
}

/// What a call is lent.
pub struct Lent<'a> {
    pub program: &'a mut [u8],
    pub memory: &'a mut [u8],
    pub inputs: &'a mut [u16],
    pub outputs: &'a mut [u16],
    pub log: &'a mut [u64],
}

/// The arguments of a run by either engine.
type RunExport = unsafe extern "C" fn(
    State,
    *const u8,
    usize,
    *mut u8,
    usize,
    *mut u16,
    usize,
    *mut u16,
    usize,
    u32,
    *mut u64,
    usize,
) -> Run;

/// The same with a journal.
type JournaledExport = unsafe extern "C" fn(
    State,
    *const u8,
    usize,
    *mut u8,
    usize,
    *mut u16,
    usize,
    *mut u16,
    usize,
    u32,
    *mut u64,
    usize,
    *mut u64,
    usize,
) -> Run;

/// The arguments of a page by either engine.
type PageExport = unsafe extern "C" fn(
    Trims,
    u8,
    *const u8,
    usize,
    *mut u8,
    usize,
    *mut u16,
    usize,
    *mut u16,
    usize,
    u32,
    *mut u64,
    usize,
) -> Page;

#[link(name = "sisa", kind = "static")]
extern "C" {
    fn sisa_load(
        file: *const u8,
        file_len: usize,
        board: u8,
        locked: u8,
        first: u16,
        last: u16,
        program: *mut u8,
        program_len: usize,
        memory: *mut u8,
        memory_len: usize,
        inputs: *mut u16,
        inputs_len: usize,
        outputs: *mut u16,
        outputs_len: usize,
    ) -> Load;
    fn sisa_set_input(inputs: *mut u16, inputs_len: usize, port: u8, value: u16) -> u8;
    fn sisa_run_by_rules(
        state: State,
        program: *const u8,
        program_len: usize,
        memory: *mut u8,
        memory_len: usize,
        inputs: *mut u16,
        inputs_len: usize,
        outputs: *mut u16,
        outputs_len: usize,
        budget: u32,
        log: *mut u64,
        log_len: usize,
    ) -> Run;
    fn sisa_run_by_table(
        state: State,
        program: *const u8,
        program_len: usize,
        memory: *mut u8,
        memory_len: usize,
        inputs: *mut u16,
        inputs_len: usize,
        outputs: *mut u16,
        outputs_len: usize,
        budget: u32,
        log: *mut u64,
        log_len: usize,
    ) -> Run;
    fn sisa_run_by_rules_with_journal(
        state: State,
        program: *const u8,
        program_len: usize,
        memory: *mut u8,
        memory_len: usize,
        inputs: *mut u16,
        inputs_len: usize,
        outputs: *mut u16,
        outputs_len: usize,
        budget: u32,
        log: *mut u64,
        log_len: usize,
        journal: *mut u64,
        journal_len: usize,
    ) -> Run;
    fn sisa_run_by_table_with_journal(
        state: State,
        program: *const u8,
        program_len: usize,
        memory: *mut u8,
        memory_len: usize,
        inputs: *mut u16,
        inputs_len: usize,
        outputs: *mut u16,
        outputs_len: usize,
        budget: u32,
        log: *mut u64,
        log_len: usize,
        journal: *mut u64,
        journal_len: usize,
    ) -> Run;
    fn sisa_step_back(
        state: State,
        program: *const u8,
        program_len: usize,
        memory: *mut u8,
        memory_len: usize,
        inputs: *mut u16,
        inputs_len: usize,
        outputs: *mut u16,
        outputs_len: usize,
        journal: *const u64,
        journal_len: usize,
        k: u64,
    ) -> Back;
    fn sisa_host_step(
        state: *mut State,
        program: *const u8,
        program_len: usize,
        memory: *mut u8,
        memory_len: usize,
        inputs: *mut u16,
        inputs_len: usize,
        outputs: *mut u16,
        outputs_len: usize,
        log: *mut u64,
        log_len: usize,
    ) -> Answer;
    fn sisa_page_by_rules(
        trims: Trims,
        count: u8,
        programs: *const u8,
        programs_len: usize,
        memories: *mut u8,
        memories_len: usize,
        inputs: *mut u16,
        inputs_len: usize,
        outputs: *mut u16,
        outputs_len: usize,
        budget: u32,
        log: *mut u64,
        log_len: usize,
    ) -> Page;
    fn sisa_page_by_table(
        trims: Trims,
        count: u8,
        programs: *const u8,
        programs_len: usize,
        memories: *mut u8,
        memories_len: usize,
        inputs: *mut u16,
        inputs_len: usize,
        outputs: *mut u16,
        outputs_len: usize,
        budget: u32,
        log: *mut u64,
        log_len: usize,
    ) -> Page;
    fn sisa_raise(state: State, line: u8) -> Raised;
    fn sisa_feed(sheet: Sheet, run_refusal: u8, usage: Usage) -> Fed;
    fn sisa_read(word: u16) -> Instruction;
    fn sisa_write(kind: u8, a: u8, b: u8, d: u8, n: i16) -> Word;
    fn sisa_window(
        state: State,
        program: *const u8,
        program_len: usize,
        memory: *const u8,
        memory_len: usize,
        of_data: u8,
        start: usize,
        count: usize,
    ) -> Window;
    fn sisa_save(
        state: State,
        program: *const u8,
        program_len: usize,
        memory: *const u8,
        memory_len: usize,
        destination: *mut u8,
        destination_len: usize,
    ) -> Saved;
    fn sisa_assemble(
        text: *const u8,
        text_len: usize,
        program: *mut u8,
        program_len: usize,
    ) -> Assembly;
}

pub fn load(file: &[u8], named: Named, lent: &mut Lent) -> Load {
    // SAFETY: pointers and lengths are those of slices that don't overlap.
    unsafe {
        sisa_load(
            file.as_ptr(),
            file.len(),
            named.board,
            named.locked,
            named.first,
            named.last,
            lent.program.as_mut_ptr(),
            lent.program.len(),
            lent.memory.as_mut_ptr(),
            lent.memory.len(),
            lent.inputs.as_mut_ptr(),
            lent.inputs.len(),
            lent.outputs.as_mut_ptr(),
            lent.outputs.len(),
        )
    }
}

pub fn set_input(inputs: &mut [u16], port: u8, value: u16) -> u8 {
    // SAFETY: pointer and length are a slice's.
    unsafe { sisa_set_input(inputs.as_mut_ptr(), inputs.len(), port, value) }
}

pub fn run_by_rules(state: State, budget: u32, lent: &mut Lent) -> Run {
    run(sisa_run_by_rules, state, budget, lent)
}

pub fn run_by_table(state: State, budget: u32, lent: &mut Lent) -> Run {
    run(sisa_run_by_table, state, budget, lent)
}

fn run(export: RunExport, state: State, budget: u32, lent: &mut Lent) -> Run {
    // SAFETY: pointers and lengths are those of slices that don't overlap, and
    // the caller is one of the two functions above.
    unsafe {
        export(
            state,
            lent.program.as_ptr(),
            lent.program.len(),
            lent.memory.as_mut_ptr(),
            lent.memory.len(),
            lent.inputs.as_mut_ptr(),
            lent.inputs.len(),
            lent.outputs.as_mut_ptr(),
            lent.outputs.len(),
            budget,
            lent.log.as_mut_ptr(),
            lent.log.len(),
        )
    }
}

pub fn run_by_rules_with_journal(
    state: State,
    budget: u32,
    lent: &mut Lent,
    journal: &mut [u64],
) -> Run {
    journaled(sisa_run_by_rules_with_journal, state, budget, lent, journal)
}

pub fn run_by_table_with_journal(
    state: State,
    budget: u32,
    lent: &mut Lent,
    journal: &mut [u64],
) -> Run {
    journaled(sisa_run_by_table_with_journal, state, budget, lent, journal)
}

fn journaled(
    export: JournaledExport,
    state: State,
    budget: u32,
    lent: &mut Lent,
    journal: &mut [u64],
) -> Run {
    // SAFETY: pointers and lengths are those of slices that don't overlap, and
    // the caller is one of the two functions above.
    unsafe {
        export(
            state,
            lent.program.as_ptr(),
            lent.program.len(),
            lent.memory.as_mut_ptr(),
            lent.memory.len(),
            lent.inputs.as_mut_ptr(),
            lent.inputs.len(),
            lent.outputs.as_mut_ptr(),
            lent.outputs.len(),
            budget,
            lent.log.as_mut_ptr(),
            lent.log.len(),
            journal.as_mut_ptr(),
            journal.len(),
        )
    }
}

pub fn step_back(state: State, lent: &mut Lent, journal: &[u64], k: u64) -> Back {
    // SAFETY: pointers and lengths are those of slices that don't overlap.
    unsafe {
        sisa_step_back(
            state,
            lent.program.as_ptr(),
            lent.program.len(),
            lent.memory.as_mut_ptr(),
            lent.memory.len(),
            lent.inputs.as_mut_ptr(),
            lent.inputs.len(),
            lent.outputs.as_mut_ptr(),
            lent.outputs.len(),
            journal.as_ptr(),
            journal.len(),
            k,
        )
    }
}

pub fn host_step(state: &mut State, lent: &mut Lent) -> Answer {
    // SAFETY: pointers and lengths are those of slices that don't overlap, and
    // of a state apart from them.
    unsafe {
        sisa_host_step(
            state,
            lent.program.as_ptr(),
            lent.program.len(),
            lent.memory.as_mut_ptr(),
            lent.memory.len(),
            lent.inputs.as_mut_ptr(),
            lent.inputs.len(),
            lent.outputs.as_mut_ptr(),
            lent.outputs.len(),
            lent.log.as_mut_ptr(),
            lent.log.len(),
        )
    }
}

/// Memories and ports of `lent` are the trims' joined.
pub fn page_by_rules(trims: Trims, count: u8, budget: u32, lent: &mut Lent) -> Page {
    page(sisa_page_by_rules, trims, count, budget, lent)
}

pub fn page_by_table(trims: Trims, count: u8, budget: u32, lent: &mut Lent) -> Page {
    page(sisa_page_by_table, trims, count, budget, lent)
}

fn page(export: PageExport, trims: Trims, count: u8, budget: u32, lent: &mut Lent) -> Page {
    // SAFETY: pointers and lengths are those of slices that don't overlap, and
    // the caller is one of the two functions above.
    unsafe {
        export(
            trims,
            count,
            lent.program.as_ptr(),
            lent.program.len(),
            lent.memory.as_mut_ptr(),
            lent.memory.len(),
            lent.inputs.as_mut_ptr(),
            lent.inputs.len(),
            lent.outputs.as_mut_ptr(),
            lent.outputs.len(),
            budget,
            lent.log.as_mut_ptr(),
            lent.log.len(),
        )
    }
}

pub fn raise(state: State, line: u8) -> Raised {
    // SAFETY: every state and line is allowed.
    unsafe { sisa_raise(state, line) }
}

pub fn feed(sheet: Sheet, run_refusal: u8, usage: Usage) -> Fed {
    // SAFETY: every sheet, number and count is allowed.
    unsafe { sisa_feed(sheet, run_refusal, usage) }
}

pub fn read(word: u16) -> Instruction {
    // SAFETY: every word is allowed.
    unsafe { sisa_read(word) }
}

pub fn write(kind: u8, a: u8, b: u8, d: u8, n: i16) -> Word {
    // SAFETY: every kind and part is allowed.
    unsafe { sisa_write(kind, a, b, d, n) }
}

pub fn window(
    state: State,
    program: &[u8],
    memory: &[u8],
    of_data: u8,
    start: usize,
    count: usize,
) -> Window {
    // SAFETY: pointers and lengths are those of slices, which are only read.
    unsafe {
        sisa_window(
            state,
            program.as_ptr(),
            program.len(),
            memory.as_ptr(),
            memory.len(),
            of_data,
            start,
            count,
        )
    }
}

pub fn save(state: State, program: &[u8], memory: &[u8], destination: &mut [u8]) -> Saved {
    // SAFETY: pointers and lengths are those of slices that don't overlap.
    unsafe {
        sisa_save(
            state,
            program.as_ptr(),
            program.len(),
            memory.as_ptr(),
            memory.len(),
            destination.as_mut_ptr(),
            destination.len(),
        )
    }
}

pub fn assemble(text: &[u8], program: &mut [u8]) -> Assembly {
    // SAFETY: pointers and lengths are those of slices that don't overlap.
    unsafe {
        sisa_assemble(
            text.as_ptr(),
            text.len(),
            program.as_mut_ptr(),
            program.len(),
        )
    }
}
