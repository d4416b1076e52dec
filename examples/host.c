/* A host in C: loads a trim, sets three inputs, runs it, shows the corrections, saves both memories and loads them again;
   then takes the first steps one by one, steps back from the end of a run and goes forward again; presses the key for a second
   trim, if one is named; runs a third, which changes its own code, on the single-memory board, if one is named; turns a knob for
   a fourth, if one is named; runs the first and a fifth as a page, if one is named; locks bytes of a sixth, if one is named; and
   shows the usage sheet of it all.

       gcc -O2 -Iinclude examples/host.c target/staticlib/libsisa.a -o target/host_c
       target/host_c examples/gain.trim examples/key.trim examples/fanout.trim examples/knob.trim examples/endless.trim examples/curve.trim */
#include "sisa.h"

#include <stdio.h>
#include <string.h>

enum { MEMORY_BYTES = 65536, PORTS = 256, LOG_PLACES = 64, BUDGET = 1000, HOST_STEPS = 5, BACK_STEPS = 5, KINDS = 34 };
enum { TWO_MEMORIES = 0, SINGLE_MEMORY = 1 };
enum { KNOB = 3, KNOB_PORT = 16, WAIT_STEPS = 10 };
enum { TRIMS = 2, PART_PLACES = LOG_PLACES / TRIMS }; /* of a page */

/* Bytes of data memory that a load locks, first to last; none where `locked` is 0. */
typedef struct {
    uint8_t locked;
    uint16_t first, last;
} Range;

static const Range none, corrections = { 1, 16, 23 };

static uint8_t file[16 + 2 * MEMORY_BYTES], program[MEMORY_BYTES], memory[MEMORY_BYTES];
static uint16_t inputs[PORTS], outputs[PORTS];
static uint64_t port_log[LOG_PLACES], journal[BUDGET];
static SisaSheet sheet; /* all zero: the empty sheet */

static const char *const kinds[KINDS] = {
    "AND", "OR", "XOR", "NOT", "ADD", "SUB", "SHA", "SHL", "CMPLT", "CMPLE", "CMPEQ", "CMPLTU", "CMPLEU", "ADDI", "LD", "ST", "LDB",
    "STB", "JALR", "BZ", "BNZ", "MOVI", "MOVHI", "IN", "OUT", "MUL", "MULH", "MULHU", "DIV", "DIVU", "EI", "DI", "RETI",
    "GETIID",
};

static void print_state(const char *title, const SisaState *state)
{
    printf("%s: pc %04X, n %u, r", title, state->pc, state->n);
    for (int i = 0; i < 8; i++)
        printf(" %04X", state->r[i]);
    printf("\n");
}

/* Returns the file's length, or -1 where it can't be read or is longer than the buffer. */
static long read_file(const char *path)
{
    FILE *trim = fopen(path, "rb");
    if (trim == NULL)
        return -1;
    long length = (long)fread(file, 1, sizeof file, trim);
    int whole = feof(trim) || fgetc(trim) == EOF;
    fclose(trim);
    return whole ? length : -1;
}

/* Shows a refusal, where there is one. */
static int refused(uint8_t refusal)
{
    if (refusal != 0)
        printf("refused: %u\n", refusal);
    return refusal != 0;
}

/* Reads a trim file and loads it for a board, with a range locked, into these memories and ports. Returns 0 where it can't be
   read or is refused. */
static int load_into(uint8_t *to_program, uint8_t *to_memory, uint16_t *to_inputs, uint16_t *to_outputs, const char *path,
                     uint8_t board, Range range, SisaState *state)
{
    long length = read_file(path);
    if (length < 0) {
        fprintf(stderr, "%s: no file of at most %zu bytes\n", path, sizeof file);
        return 0;
    }
    SisaLoad loaded = sisa_load(file, (size_t)length, board, range.locked, range.first, range.last, to_program, MEMORY_BYTES,
                                to_memory, MEMORY_BYTES, to_inputs, PORTS, to_outputs, PORTS);
    *state = loaded.state;
    return !refused(loaded.refusal);
}

static int load(const char *path, uint8_t board, Range range, SisaState *state)
{
    return load_into(program, memory, inputs, outputs, path, board, range, state);
}

/* Port 0 is set before each run: reading port 1, the key's data, sets it to 0, also where the two are knobs. */
static void set_level(uint16_t *ports)
{
    sisa_set_input(ports, PORTS, 0, 500);
}

static void set_knobs(uint16_t *ports)
{
    set_level(ports);
    sisa_set_input(ports, PORTS, 1, 320);
    sisa_set_input(ports, PORTS, 2, 20);
    printf("inputs: port 0 level 500, port 1 gain 320/256, port 2 lift 20\n");
}

/* An entry of the log is n before the step, the port and the value, from the high bits to the low. An output port holds
   the value last written. */
static void print_corrections(const uint64_t *log, uint64_t entries, const uint16_t *ports)
{
    for (uint64_t i = 0; i < entries; i++) {
        unsigned n = (unsigned)(log[i] >> 24), port = log[i] >> 16 & 255, value = log[i] & 65535;
        printf("log: n %u, port %u, value %u; the output now holds %u\n", n, port, value, ports[port]);
    }
}

/* Adds what a run or a host step returned. */
static void feed(uint8_t refusal, SisaUsage usage)
{
    SisaFed fed = sisa_feed(sheet, refusal, usage);
    refused(fed.refusal);
    sheet = fed.sheet;
}

/* Feeds and shows a run that was lent this log and these outputs. Returns 0 where it is refused. */
static int show_lent(const char *title, const SisaRun *run, const uint64_t *log, const uint16_t *ports)
{
    feed(run->refusal, run->usage);
    if (refused(run->refusal))
        return 0;
    printf("%s: stop %u, steps %u, entries %u, ticks %llu\n", title, run->stop, run->steps, (unsigned)run->entries,
           (unsigned long long)run->ticks);
    print_corrections(log, run->entries, ports);
    print_state("state", &run->state);
    return 1;
}

static int show_run(const char *title, const SisaRun *run)
{
    return show_lent(title, run, port_log, outputs);
}

/* Saves what the trim left and loads it, for the same board and with the same range, into memories of its own. Locked bytes are
   zero then. Returns 0 where one of the two is refused. */
static int save_and_load(SisaState state)
{
    static uint8_t saved_file[sizeof file], program_again[MEMORY_BYTES], memory_again[MEMORY_BYTES], unlocked[MEMORY_BYTES];
    static uint16_t inputs_again[PORTS], outputs_again[PORTS];
    SisaSaved saved = sisa_save(state, program, sizeof program, memory, sizeof memory, saved_file, sizeof saved_file);
    if (refused(saved.refusal))
        return 0;
    SisaLoad loaded = sisa_load(saved_file, saved.length, state.board, state.locked, state.first_locked, state.last_locked,
                                program_again, sizeof program_again, memory_again, sizeof memory_again, inputs_again, PORTS,
                                outputs_again, PORTS);
    if (refused(loaded.refusal))
        return 0;
    memcpy(unlocked, memory, sizeof memory);
    if (state.locked)
        memset(unlocked + state.first_locked, 0, state.last_locked - state.first_locked + 1u);
    int same = memcmp(program_again, program, sizeof program) == 0 && memcmp(memory_again, unlocked, sizeof memory) == 0;
    printf("saved %zu bytes, loaded again: %s memories%s\n", saved.length, same ? "equal" : "other",
           state.locked ? " but for the locked bytes, which are zero" : "");
    return 1;
}

/* Each step is a run by the table with budget 1, over the state held here. Memory and outputs are as the run left them. */
static void step_by_step(SisaState state)
{
    for (int i = 0; i < HOST_STEPS; i++) {
        SisaAnswer answer = sisa_host_step(&state, program, sizeof program, memory, sizeof memory, inputs, PORTS,
                                           outputs, PORTS, port_log, LOG_PLACES);
        feed(answer.refusal, answer.usage);
        if (answer.steps == 0) {
            printf("no step: refusal %u, stop %u\n", answer.refusal, answer.stop);
            return;
        }
        print_state("host step", &state);
    }
}

static SisaRun run_with_journal(SisaState state, uint32_t budget)
{
    return sisa_run_by_table_with_journal(state, program, sizeof program, memory, sizeof memory, inputs, PORTS, outputs, PORTS,
                                          budget, port_log, LOG_PLACES, journal, BUDGET);
}

/* Shows the steps of a run taken back. Returns 0 where the call is refused. */
static int step_back(SisaState *state, uint32_t steps)
{
    SisaBack back = sisa_step_back(*state, program, sizeof program, memory, sizeof memory, inputs, PORTS, outputs, PORTS,
                                   journal, BUDGET, steps);
    if (refused(back.refusal))
        return 0;
    printf("back: steps %u, entries fallen away %u\n", steps, (unsigned)back.entries);
    print_state("state", &back.state);
    *state = back.state;
    return 1;
}

/* A run that keeps a journal, its last steps taken back, and as many steps again: the inputs are the same, so the log entries
   are too. The sheet has those steps twice. Returns 0 where a call is refused. */
static int back_and_forward(SisaState state)
{
    SisaRun run = run_with_journal(state, BUDGET);
    if (!show_run("run by the table, with a journal", &run))
        return 0;
    uint32_t steps = run.steps < BACK_STEPS ? run.steps : BACK_STEPS;
    if (!step_back(&run.state, steps))
        return 0;
    run = run_with_journal(run.state, steps);
    return show_run("forward again", &run);
}

static void print_key(const char *title)
{
    printf("%s: port 0 status %u, port 1 data %u\n", title, inputs[0], inputs[1]);
}

/* Presses the key for a trim that waits for it. Reading the data takes the key: the status is 0 after that. Taking the steps back
   gives the status what it was before the read. Returns 0 where a call is refused. */
static int press_key(const char *path)
{
    SisaState state;
    if (!load(path, TWO_MEMORIES, none, &state))
        return 0;
    sisa_set_input(inputs, PORTS, 0, 1);
    sisa_set_input(inputs, PORTS, 1, 65);
    print_key("key pressed");
    SisaRun run = run_with_journal(state, BUDGET);
    if (!show_run("run by the table, with a journal", &run))
        return 0;
    print_key("key taken");
    if (!step_back(&run.state, run.steps))
        return 0;
    print_key("key given back");
    return 1;
}

/* The word at address 8, in data memory, where the single-memory board fetches its instructions. */
static void print_code(const char *title)
{
    printf("%s: the word at 0008 is %04X\n", title, memory[8] | memory[9] << 8);
}

/* Runs a trim that changes its own code, on the single-memory board. A save has the code as it is then, and taking the steps back
   gives the code back too. Returns 0 where a call is refused. */
static int change_code(const char *path)
{
    SisaState state;
    if (!load(path, SINGLE_MEMORY, none, &state))
        return 0;
    set_level(inputs);
    print_code("single-memory board");
    SisaRun run = run_with_journal(state, BUDGET);
    if (!show_run("run by the table, with a journal", &run))
        return 0;
    print_code("code changed");
    if (!save_and_load(run.state) || !step_back(&run.state, run.steps))
        return 0;
    print_code("code given back");
    return 1;
}

static void print_lines(const char *title, const SisaState *state)
{
    printf("%s: enabled %u, pending %02X, line %u, return address %04X\n", title, state->enabled, state->pending, state->line,
           state->return_address);
}

/* The knob's input has its position, and its line is raised. Returns 0 where that is refused. */
static int turn_knob(SisaState *state)
{
    sisa_set_input(inputs, PORTS, KNOB_PORT, 700);
    SisaRaised raised = sisa_raise(*state, KNOB);
    *state = raised.state;
    return !refused(raised.refusal);
}

/* Runs a trim that waits for a knob, turns it, and goes on: the line is taken before the next instruction, and the trim's handler
   reads the knob. Taking the steps back gives the line its bit again. Returns 0 where a call is refused. */
static int wait_for_knob(const char *path)
{
    SisaState state;
    if (!load(path, TWO_MEMORIES, none, &state))
        return 0;
    SisaRun run = run_with_journal(state, WAIT_STEPS);
    if (!show_run("run by the table, with a journal", &run))
        return 0;
    print_lines("waiting for a knob", &run.state);
    if (!turn_knob(&run.state))
        return 0;
    print_lines("knob turned", &run.state);
    run = run_with_journal(run.state, BUDGET);
    if (!show_run("run by the table, with a journal", &run))
        return 0;
    print_lines("line taken", &run.state);
    if (!step_back(&run.state, run.steps))
        return 0;
    print_lines("line given back", &run.state);
    return 1;
}

/* Feeds and shows what a page replied of trim i, as of one run. */
static void show_trim(int i, const SisaPage *page, const uint16_t *page_outputs)
{
    const SisaAnswer *answer = &page->answers[i];
    SisaRun run = { page->trims.states[i], answer->refusal, answer->stop, answer->steps, answer->entries, answer->ticks,
                    answer->usage };
    char title[16];
    snprintf(title, sizeof title, "trim %d", i);
    show_lent(title, &run, port_log + i * PART_PLACES, page_outputs + i * PORTS);
}

/* Runs two trims as a page, the first with its knobs set. Memories, ports and log are joined, and what the first leaves of the
   budget goes to the second. Returns 0 where a call is refused. */
static int run_page(const char *const *paths)
{
    static uint8_t programs[TRIMS * MEMORY_BYTES], memories[TRIMS * MEMORY_BYTES];
    static uint16_t page_inputs[TRIMS * PORTS], page_outputs[TRIMS * PORTS];
    SisaTrims trims = { .states = { { .pc = 0 } } };
    for (int i = 0; i < TRIMS; i++)
        if (!load_into(programs + i * MEMORY_BYTES, memories + i * MEMORY_BYTES, page_inputs + i * PORTS,
                       page_outputs + i * PORTS, paths[i], TWO_MEMORIES, none, &trims.states[i]))
            return 0;
    set_knobs(page_inputs);
    SisaPage page = sisa_page_by_table(trims, TRIMS, programs, sizeof programs, memories, sizeof memories, page_inputs,
                                       TRIMS * PORTS, page_outputs, TRIMS * PORTS, BUDGET, port_log, LOG_PLACES);
    if (refused(page.refusal))
        return 0;
    printf("page by the table: trims %d, budget %d\n", TRIMS, BUDGET);
    for (int i = 0; i < TRIMS; i++)
        show_trim(i, &page, page_outputs);
    return 1;
}

/* How many bytes a window on data memory shows. */
static void print_window(const SisaState *state, size_t start, size_t count)
{
    SisaWindow window = sisa_window(*state, program, sizeof program, memory, sizeof memory, 1, start, count);
    printf("window on %zu bytes from %04zX: shows %zu\n", count, start, window.count);
}

/* Locks the corrections of a curve, which follow it in data memory. The run stops where the trim would read one, and neither a
   window nor a saved file shows them. Returns 0 where a call is refused. */
static int lock_corrections(const char *path)
{
    SisaState state;
    if (!load(path, TWO_MEMORIES, corrections, &state))
        return 0;
    printf("locked: bytes %04X to %04X\n", state.first_locked, state.last_locked);
    SisaRun run = run_with_journal(state, BUDGET);
    if (!show_run("run by the table, with a journal", &run))
        return 0;
    print_window(&run.state, 0, corrections.first);
    print_window(&run.state, corrections.first, corrections.last - corrections.first + 1u);
    return save_and_load(run.state);
}

static void print_steps(const char *what, uint64_t steps)
{
    if (steps != 0)
        printf("%-6s %6llu steps\n", what, (unsigned long long)steps);
}

/* The kinds that were done, the lines taken, and the registers. */
static void print_sheet(void)
{
    printf("sheet of %u runs\n", sheet.runs);
    for (int k = 0; k < KINDS; k++)
        print_steps(kinds[k], sheet.kinds[k]);
    print_steps("taken", sheet.taken);
    for (int j = 0; j < 8; j++)
        printf("R%d     %6llu reads %6llu writes\n", j, (unsigned long long)sheet.reads[j], (unsigned long long)sheet.writes[j]);
}

/* What is shown for each further trim that is named. Returns 0 where a call is refused. */
static int show_others(int argc, char **argv)
{
    if (argc > 2 && !press_key(argv[2]))
        return 0;
    if (argc > 3 && !change_code(argv[3]))
        return 0;
    if (argc > 4 && !wait_for_knob(argv[4]))
        return 0;
    if (argc > 5 && !run_page((const char *const[TRIMS]){ argv[1], argv[5] }))
        return 0;
    return argc <= 6 || lock_corrections(argv[6]);
}

int main(int argc, char **argv)
{
    if (argc < 2 || argc > 7) {
        fprintf(stderr, "usage: %s FILE.trim [KEY.trim [FANOUT.trim [KNOB.trim [OTHER.trim [CURVE.trim]]]]]\n", argv[0]);
        return 2;
    }
    SisaState reset;
    if (!load(argv[1], TWO_MEMORIES, none, &reset))
        return 1;
    set_knobs(inputs);
    SisaRun run = sisa_run_by_rules(reset, program, sizeof program, memory, sizeof memory, inputs, PORTS, outputs, PORTS, BUDGET,
                                    port_log, LOG_PLACES);
    if (!show_run("run by the rules", &run) || !save_and_load(run.state))
        return 1;
    set_level(inputs);
    step_by_step(reset);
    set_level(inputs);
    if (!back_and_forward(reset) || !show_others(argc, argv))
        return 1;
    print_sheet();
    return 0;
}
