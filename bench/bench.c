/* The engines of libsisa.a beside a plain C interpreter (plain.c) and a faster one (flat.c), and its save beside plain C
   (save.c), in one process. All count what a run uses, but for the plain interpreter compiled a second time (uncounted.c). Runs
   with a journal (journaled.c, journaled_flat.c) and steps back (back.c) are beside those of C too, and a page beside the runs that it
   is. All test for a line to be taken at every step and for locked bytes at every load and store; none is pending and none locked in
   a timed run; a run that takes lines, and one that stops at a locked byte and its save, are compared beforehand.

   Time is the CPU time of this process, so that being scheduled out does not count. All engines are lent the same
   buffers, which are made anew before each timed run (memory and inputs as the workload says, outputs and log zero), so
   no page is touched for the first time while the clock runs. In a round each engine runs once, and the order rotates
   from round to round; a ratio is of the two times of one round, and what is printed is the median over the rounds.
   After every timed run its reply, the counts too, and all buffers are compared with those of the C interpreter, after steps
   back to the start of a run with what that started from, after timed saves the reply and the destination with those of C: exit
   status 1 where they differ, else 0, whatever the times are. */
#include "plain.h"
#include "sisa.h"
#include "workloads.h"

#include <stdio.h>
#include <stdlib.h>
#include <string.h>
#include <time.h>

enum {
    ROUNDS = 15,
    STEPS = 10000000,       /* of a run in the first table */
    JOURNAL_PLACES = 1000000, /* the steps of a run with a journal, or its calls with budget 1 */
    GROWTH_ROUNDS = 5,
    GROWTH_STEPS = 100000000,
    CALLS = 1000000,        /* with budget 1, in one timed repeat */
    COUNTED_STEPS = 100000, /* of a run whose instructions are counted */
    COUNTED_CALLS = 1000,   /* the same, with budget 1 */
    SAVES = 1000,           /* in one timed repeat */
    FILE_BYTES = 16 + 2 * MEMORY_BYTES,
    TRIMS = 8,              /* of a page */
    PAGE_STEPS = 1000000,   /* its budget */
    SHARE = PAGE_STEPS / TRIMS,
    PART_PLACES = SHARE / STEPS_PER_OUT + 1, /* of its log */
    LATE_STEPS = 100000,    /* the end of the random program's run, where the addresses are counted */
    RANDOM_SEED = 251,
    LOCKED_BYTE = 1000,     /* where a run that is compared stops */
    C = 0,                  /* the engine, and the save, that the others are compared with */
    RULES = 2,
    TABLE,
    UNCOUNTED,
    KEEPERS = UNCOUNTED,    /* the engines before it can keep a journal */
    ENGINES,
    CALLED,                 /* the engines and, last, the host step */
};

static const struct {
    const char *name;
    Run *run;
    JournaledRun *journaled;
    StepBack *back;
} engines[CALLED] = {
    { "C", plain_run, plain_run_with_journal, plain_step_back },
    { "C flat", flat_run, flat_run_with_journal, plain_step_back },
    { "rules", sisa_run_by_rules, sisa_run_by_rules_with_journal, sisa_step_back },
    { "table", sisa_run_by_table, sisa_run_by_table_with_journal, sisa_step_back },
    { "C without", uncounted_run, NULL, NULL },
    { "host step", NULL, NULL, NULL },
};

typedef SisaPage Page(SisaTrims trims, uint8_t count,
                      const uint8_t *programs, size_t programs_len,
                      uint8_t *memories, size_t memories_len,
                      uint16_t *inputs, size_t inputs_len,
                      uint16_t *outputs, size_t outputs_len,
                      uint32_t budget,
                      uint64_t *log, size_t log_len);

/* The engines that run pages, from RULES on, and what each is measured in: the runs that a page is, and the page. */
static Page *const pages[] = { sisa_page_by_rules, sisa_page_by_table };

enum { PAGERS = TABLE - RULES + 1, RUNS = 0, PAGE, PAGE_FORMS };

/* What an engine that can keep a journal is measured in: runs without one, runs with one, and steps back by it. */
enum { WITHOUT, WITH, BACK, FORMS };

enum { LIBRARY = C + 1, COPY, SAVERS };

static const struct {
    const char *name;
    Save *save;
} savers[SAVERS] = { { "C", plain_save }, { "library", sisa_save }, { "memcpy", copied_save } };

/* The buffers that a run is lent, and what it replied. */
typedef struct {
    uint8_t memory[MEMORY_BYTES];
    uint16_t inputs[PORTS];
    uint16_t outputs[PORTS];
    uint64_t *log;
    size_t places;
    SisaRun reply;
} Lent;

/* The buffers that a page is lent, or the runs that it is, and what was replied of each trim. */
typedef struct {
    uint8_t memories[TRIMS * MEMORY_BYTES];
    uint16_t inputs[TRIMS * PORTS];
    uint16_t outputs[TRIMS * PORTS];
    uint64_t log[TRIMS * PART_PLACES];
    SisaRun replies[TRIMS];
} Joined;

/* The destination that a save is lent, and what it replied. */
typedef struct {
    uint8_t destination[FILE_BYTES];
    SisaSaved reply;
} Saved;

static Workload load;
static Lent lent, expected;
static uint8_t programs[TRIMS * MEMORY_BYTES];
static Joined joined, expected_page;
static uint64_t *journal;
static Saved saved, expected_save;

/* The runs of a timed repeat, or its steps back. */
static struct {
    uint32_t budget;
    int calls;
} repeat;

static double now(void)
{
    struct timespec t;
    clock_gettime(CLOCK_PROCESS_CPUTIME_ID, &t);
    return (double)t.tv_sec + 1e-9 * (double)t.tv_nsec;
}

static int ascending(const void *x, const void *y)
{
    double a = *(const double *)x, b = *(const double *)y;
    return (a > b) - (a < b);
}

static double median(const double *times, int count)
{
    double sorted[ROUNDS];
    memcpy(sorted, times, (size_t)count * sizeof *sorted);
    qsort(sorted, (size_t)count, sizeof *sorted, ascending);
    return sorted[count / 2];
}

/* The median of the ratios to the other's time in the same round. */
static double median_ratio(const double *times, const double *other, int count)
{
    double ratios[ROUNDS];
    for (int i = 0; i < count; i++)
        ratios[i] = times[i] / other[i];
    return median(ratios, count);
}

/* The seconds that a call took, for each kind of call and round; what it left is checked. Kinds that need each other, so many
   together, stay in their order. */
static void in_rounds(double times[][ROUNDS], int kinds, int together, int rounds, double (*timed)(int), void (*check)(int))
{
    for (int round = 0; round < rounds; round++)
        for (int k = 0; k < kinds; k++) {
            int kind = (together * round + k) % kinds;
            times[kind][round] = timed(kind);
            check(kind);
        }
}

/* A log or a journal. */
static uint64_t *new_places(size_t places)
{
    uint64_t *entries = calloc(places, sizeof *entries);
    if (entries == NULL) {
        fprintf(stderr, "no memory for the log and the journal\n");
        exit(1);
    }
    return entries;
}

static void clear(size_t places)
{
    memcpy(lent.memory, load.memory, sizeof lent.memory);
    memcpy(lent.inputs, load.inputs, sizeof lent.inputs);
    memset(lent.outputs, 0, sizeof lent.outputs);
    memset(lent.log, 0, places * sizeof *lent.log);
    lent.places = places;
}

static SisaRun run(int engine, SisaState state, uint32_t budget)
{
    return engines[engine].run(state, load.program, MEMORY_BYTES, lent.memory, MEMORY_BYTES, lent.inputs, PORTS,
                               lent.outputs, PORTS, budget, lent.log, lent.places);
}

static SisaRun run_with_journal(int engine, SisaState state, uint32_t budget)
{
    return engines[engine].journaled(state, load.program, MEMORY_BYTES, lent.memory, MEMORY_BYTES, lent.inputs, PORTS,
                                     lent.outputs, PORTS, budget, lent.log, lent.places, journal, JOURNAL_PLACES);
}

static SisaBack step_back(int engine, SisaState state, uint64_t k)
{
    return engines[engine].back(state, load.program, MEMORY_BYTES, lent.memory, MEMORY_BYTES, lent.inputs, PORTS,
                                lent.outputs, PORTS, journal, JOURNAL_PLACES, k);
}

static void keep_as_expected(void)
{
    uint64_t *log = expected.log;
    memcpy(log, lent.log, lent.places * sizeof *log);
    expected = lent;
    expected.log = log;
}

static int same_state(const SisaState *x, const SisaState *y)
{
    return memcmp(x->r, y->r, sizeof x->r) == 0 && x->pc == y->pc && x->n == y->n && x->journaled == y->journaled
        && x->board == y->board && x->enabled == y->enabled && x->pending == y->pending && x->line == y->line
        && x->return_address == y->return_address && x->locked == y->locked && x->first_locked == y->first_locked
        && x->last_locked == y->last_locked;
}

static int same_reply(const SisaRun *x, const SisaRun *y)
{
    return same_state(&x->state, &y->state) && x->refusal == y->refusal && x->stop == y->stop && x->steps == y->steps
        && x->entries == y->entries;
}

/* Ends the program where what the engine left and replied differs from what is expected. */
static void check_run(int engine)
{
    const char *what = NULL;
    if (!same_reply(&lent.reply, &expected.reply))
        what = "reply";
    else if (engine != UNCOUNTED && memcmp(&lent.reply.usage, &expected.reply.usage, sizeof lent.reply.usage) != 0)
        what = "usage";
    else if (engine != UNCOUNTED && lent.reply.ticks != expected.reply.ticks)
        what = "ticks";
    else if (memcmp(lent.memory, expected.memory, sizeof lent.memory) != 0)
        what = "memory";
    else if (memcmp(lent.inputs, expected.inputs, sizeof lent.inputs) != 0)
        what = "inputs";
    else if (memcmp(lent.outputs, expected.outputs, sizeof lent.outputs) != 0)
        what = "outputs";
    else if (memcmp(lent.log, expected.log, lent.places * sizeof *lent.log) != 0)
        what = "log";
    if (what == NULL)
        return;
    fprintf(stderr, "%s: %s and C differ in the %s\n", load.name, engines[engine].name, what);
    exit(1);
}

/* Runs, each from the workload's state, over buffers cleared before the first; the seconds that one took. */
static double timed_runs(int engine)
{
    SisaRun reply = { .refusal = 0 };
    clear(repeat.budget / STEPS_PER_OUT + 1);
    double start = now();
    for (int i = 0; i < repeat.calls; i++)
        reply = run(engine, load.start, repeat.budget);
    double end = now();
    lent.reply = reply;
    if (lent.reply.stop != 0 || lent.reply.steps != repeat.budget) {
        fprintf(stderr, "%s: %s stopped early\n", load.name, engines[engine].name);
        exit(1);
    }
    return (end - start) / repeat.calls;
}

/* The seconds of a run, for each engine and round. */
static void measure(double times[ENGINES][ROUNDS], int rounds, uint32_t budget, int calls)
{
    repeat.budget = budget;
    repeat.calls = calls;
    timed_runs(C);
    keep_as_expected();
    in_rounds(times, ENGINES, 1, rounds, timed_runs, check_run);
}

/* A line of the first table; the ratio of C to C without counting. */
static double print_ratios(void)
{
    double times[ENGINES][ROUNDS];
    measure(times, ROUNDS, STEPS, 1);
    printf("%-18s", load.name);
    for (int engine = 0; engine < ENGINES; engine++)
        printf(" %9.2f", 1e9 * median(times[engine], ROUNDS) / STEPS);
    for (int engine = 1; engine < UNCOUNTED; engine++)
        printf(" %9.2f", median_ratio(times[engine], times[C], ROUNDS));
    printf("\n");
    fflush(stdout);
    return median_ratio(times[C], times[UNCOUNTED], ROUNDS);
}

/* How many addresses the last steps of the measured run visit: a program that fell into a short loop visits few. */
static int late_addresses(void)
{
    static uint8_t visited[MEMORY_BYTES];
    int count = 0;
    clear(STEPS / STEPS_PER_OUT + 1);
    SisaState state = run(C, load.start, STEPS - LATE_STEPS).state;
    for (int i = 0; i < LATE_STEPS; i++) {
        count += !visited[state.pc];
        visited[state.pc] = 1;
        state = run(C, state, 1).state;
    }
    return count;
}

/* Runs of repeat.budget steps, each from the state that the one before returned, with a journal or without; the seconds that one
   took. Each fills the log from place 0; the reply kept has the entries of all. */
static double timed_chain(int engine, int keeps)
{
    SisaState held = load.start;
    uint64_t entries = 0;
    clear(repeat.budget / STEPS_PER_OUT + 1);
    if (keeps)
        memset(journal, 0, JOURNAL_PLACES * sizeof *journal);
    double start = now();
    for (int i = 0; i < repeat.calls; i++) {
        SisaRun reply = keeps ? run_with_journal(engine, held, repeat.budget) : run(engine, held, repeat.budget);
        held = reply.state;
        entries += reply.entries;
        if (i == repeat.calls - 1)
            lent.reply = reply;
    }
    double end = now();
    lent.reply.entries = entries;
    return (end - start) / repeat.calls;
}

/* Host steps, which change the state that the host holds. */
static double timed_host_steps(void)
{
    SisaState held = load.start;
    uint64_t entries = 0;
    clear(1);
    double start = now();
    for (int i = 0; i < repeat.calls; i++) {
        SisaAnswer answer = sisa_host_step(&held, load.program, MEMORY_BYTES, lent.memory, MEMORY_BYTES, lent.inputs, PORTS,
                                           lent.outputs, PORTS, lent.log, lent.places);
        entries += answer.entries;
        if (i == repeat.calls - 1)
            lent.reply = (SisaRun){ held, answer.refusal, answer.stop, answer.steps, 0, answer.ticks, answer.usage };
    }
    double end = now();
    lent.reply.entries = entries;
    return (end - start) / repeat.calls;
}

/* A kind is an engine, which keeps no journal here, or the host step. */
static double timed_calls(int kind)
{
    return kind < ENGINES ? timed_chain(kind, 0) : timed_host_steps();
}

static void print_call_costs(void)
{
    double times[CALLED][ROUNDS];
    repeat.budget = 1;
    repeat.calls = CALLS;
    timed_calls(C);
    keep_as_expected();
    in_rounds(times, CALLED, 1, ROUNDS, timed_calls, check_run);
    printf("\nA call with budget 1 (%s, %d rounds of %d calls)\n", load.name, ROUNDS, CALLS);
    printf("%-18s %9s %11s\n", "", "ns/call", "ratio to C");
    for (int kind = 0; kind < CALLED; kind++)
        printf("%-18s %9.2f %11.2f\n", engines[kind].name, 1e9 * median(times[kind], ROUNDS),
               median_ratio(times[kind], times[C], ROUNDS));
    fflush(stdout);
}

/* From where runs with a journal ended back to their start, repeat.budget steps at once; the seconds that one step back took. The
   reply kept has the entries that fell away. */
static double timed_back(int engine)
{
    SisaBack back = { .state = lent.reply.state };
    uint64_t entries = 0;
    double start = now();
    for (int i = 0; i < repeat.calls; i++) {
        back = step_back(engine, back.state, repeat.budget);
        entries += back.entries;
    }
    double end = now();
    lent.reply = (SisaRun){ .state = back.state, .refusal = back.refusal, .entries = entries };
    return (end - start) / repeat.calls;
}

/* A kind is an engine and a form. */
static double timed_form(int kind)
{
    int engine = kind / FORMS, form = kind % FORMS;
    return form == BACK ? timed_back(engine) : timed_chain(engine, form == WITH);
}

/* Ends the program where what a step back to the start of a run left differs from what that run started from. */
static void check_back(int engine)
{
    static const uint16_t outputs[PORTS];
    if (lent.reply.refusal == 0 && same_state(&lent.reply.state, &load.start) && lent.reply.entries == expected.reply.entries
        && memcmp(lent.memory, load.memory, sizeof lent.memory) == 0
        && memcmp(lent.inputs, load.inputs, sizeof lent.inputs) == 0 && memcmp(lent.outputs, outputs, sizeof outputs) == 0)
        return;
    fprintf(stderr, "%s: %s does not step back to the start\n", load.name, engines[engine].name);
    exit(1);
}

static void check_form(int kind)
{
    int engine = kind / FORMS, form = kind % FORMS;
    if (form == BACK) {
        check_back(engine);
        return;
    }
    expected.reply.state.journaled = form == WITH ? expected.reply.state.n : 0;
    check_run(engine);
    expected.reply.state.journaled = 0;
}

/* The head of a table of forms, and what is timed for it. */
static void begin_forms(uint32_t budget, int calls)
{
    repeat.budget = budget;
    repeat.calls = calls;
    printf("\nRuns of %u steps without a journal, with one, and back by it, %d rounds of %d: median ns/step, and median of the "
           "ratios in a round\n", budget, ROUNDS, calls);
    printf("%-25s %9s %9s %9s %12s %9s %9s %9s\n", "", "without", "with", "back", "with/without", "back/with", "with/C",
           "back/C");
}

/* Its lines for a workload. */
static void print_forms(void)
{
    double times[KEEPERS * FORMS][ROUNDS];
    timed_form(C * FORMS + WITHOUT);
    keep_as_expected();
    in_rounds(times, KEEPERS * FORMS, FORMS, ROUNDS, timed_form, check_form);
    for (int engine = 0; engine < KEEPERS; engine++) {
        double(*form)[ROUNDS] = times + engine * FORMS, (*c)[ROUNDS] = times + C * FORMS;
        printf("%-18s %-6s", engine == C ? load.name : "", engines[engine].name);
        for (int i = 0; i < FORMS; i++)
            printf(" %9.2f", 1e9 * median(form[i], ROUNDS) / repeat.budget);
        printf(" %12.2f %9.2f %9.2f %9.2f\n", median_ratio(form[WITH], form[WITHOUT], ROUNDS),
               median_ratio(form[BACK], form[WITH], ROUNDS), median_ratio(form[WITH], c[WITH], ROUNDS),
               median_ratio(form[BACK], c[BACK], ROUNDS));
    }
    fflush(stdout);
}

/* Eight trims, all as the workload says. */
static void clear_joined(void)
{
    memset(&joined, 0, sizeof joined);
    for (int i = 0; i < TRIMS; i++) {
        memcpy(programs + i * MEMORY_BYTES, load.program, MEMORY_BYTES);
        memcpy(joined.memories + i * MEMORY_BYTES, load.memory, MEMORY_BYTES);
        memcpy(joined.inputs + i * PORTS, load.inputs, sizeof load.inputs);
    }
}

/* The runs that a page is: each trim's share is its whole budget, since none stops early. */
static double timed_share_runs(int engine)
{
    clear_joined();
    double start = now();
    for (int i = 0; i < TRIMS; i++)
        joined.replies[i] =
            engines[engine].run(load.start, programs + i * MEMORY_BYTES, MEMORY_BYTES, joined.memories + i * MEMORY_BYTES,
                                MEMORY_BYTES, joined.inputs + i * PORTS, PORTS, joined.outputs + i * PORTS, PORTS, SHARE,
                                joined.log + i * PART_PLACES, PART_PLACES);
    return now() - start;
}

static double timed_page(int engine)
{
    SisaTrims trims;
    for (int i = 0; i < TRIMS; i++)
        trims.states[i] = load.start;
    clear_joined();
    double start = now();
    SisaPage page = pages[engine - RULES](trims, TRIMS, programs, sizeof programs, joined.memories, sizeof joined.memories,
                                          joined.inputs, TRIMS * PORTS, joined.outputs, TRIMS * PORTS, PAGE_STEPS, joined.log,
                                          TRIMS * PART_PLACES);
    double end = now();
    for (int i = 0; i < TRIMS; i++) {
        const SisaAnswer *a = &page.answers[i];
        joined.replies[i] = (SisaRun){ page.trims.states[i], a->refusal, a->stop, a->steps, a->entries, a->ticks, a->usage };
    }
    return end - start;
}

/* A kind is an engine and a form. */
static double timed_pages(int kind)
{
    int engine = RULES + kind / PAGE_FORMS;
    return kind % PAGE_FORMS == PAGE ? timed_page(engine) : timed_share_runs(engine);
}

static int same_replies(const SisaRun *x, const SisaRun *y)
{
    for (int i = 0; i < TRIMS; i++)
        if (!same_reply(&x[i], &y[i]) || memcmp(&x[i].usage, &y[i].usage, sizeof x->usage) != 0 || x[i].ticks != y[i].ticks)
            return 0;
    return 1;
}

/* Ends the program where what the page or its runs left and replied differs from the runs of C. */
static void check_pages(int kind)
{
    if (same_replies(joined.replies, expected_page.replies)
        && memcmp(joined.memories, expected_page.memories, sizeof joined.memories) == 0
        && memcmp(joined.inputs, expected_page.inputs, sizeof joined.inputs) == 0
        && memcmp(joined.outputs, expected_page.outputs, sizeof joined.outputs) == 0
        && memcmp(joined.log, expected_page.log, sizeof joined.log) == 0)
        return;
    fprintf(stderr, "%s: %s of %s and runs of C differ\n", load.name, kind % PAGE_FORMS == PAGE ? "a page" : "runs",
            engines[RULES + kind / PAGE_FORMS].name);
    exit(1);
}

/* A line of the table of pages. */
static void print_page(void)
{
    double times[PAGERS * PAGE_FORMS][ROUNDS];
    timed_share_runs(C);
    expected_page = joined;
    in_rounds(times, PAGERS * PAGE_FORMS, 1, ROUNDS, timed_pages, check_pages);
    printf("%-18s", load.name);
    for (int kind = 0; kind < PAGERS * PAGE_FORMS; kind++)
        printf(" %11.3f", 1e3 * median(times[kind], ROUNDS));
    for (int i = 0; i < PAGERS; i++)
        printf(" %11.3f", median_ratio(times[i * PAGE_FORMS + PAGE], times[i * PAGE_FORMS + RUNS], ROUNDS));
    printf("\n");
    fflush(stdout);
}

/* Saves into a destination that was all 0xFF; the seconds that one took. */
static double timed_saves(int saver)
{
    memset(saved.destination, 0xFF, FILE_BYTES);
    double start = now();
    for (int i = 0; i < SAVES; i++)
        saved.reply = savers[saver].save(load.start, load.program, MEMORY_BYTES, load.memory, MEMORY_BYTES, saved.destination,
                                         FILE_BYTES);
    double end = now();
    return (end - start) / SAVES;
}

/* Ends the program where what the save left and replied differs from what is expected. */
static void check_save(int saver)
{
    if (same_state(&saved.reply.state, &expected_save.reply.state) && saved.reply.refusal == expected_save.reply.refusal
        && saved.reply.length == expected_save.reply.length
        && memcmp(saved.destination, expected_save.destination, FILE_BYTES) == 0)
        return;
    fprintf(stderr, "save: %s and C differ\n", savers[saver].name);
    exit(1);
}

/* Saves of memories that hold this byte everywhere, by the first `count` savers. */
static void print_save(const char *name, uint8_t byte, int count)
{
    double times[SAVERS][ROUNDS];
    memset(load.program, byte, MEMORY_BYTES);
    memset(load.memory, byte, MEMORY_BYTES);
    timed_saves(C);
    expected_save = saved;
    in_rounds(times, count, 1, ROUNDS, timed_saves, check_save);
    printf("%-18s %9zu %9.3f %9.3f %9.2f", name, saved.reply.length, 1e6 * median(times[C], ROUNDS),
           1e6 * median(times[LIBRARY], ROUNDS), median_ratio(times[LIBRARY], times[C], ROUNDS));
    if (count > COPY)
        printf(" %9.3f %14.2f", 1e6 * median(times[COPY], ROUNDS),
               median_ratio(times[LIBRARY], times[COPY], ROUNDS));
    printf("\n");
    fflush(stdout);
}

/* Of full memories C tests the last bytes and copies the rest, of empty ones it tests every byte. memcpy alone makes the
   file only where nothing is dropped. */
static void print_save_costs(void)
{
    printf("\nA save (%d rounds of %d calls): median microseconds, and median of the ratios in a round\n", ROUNDS, SAVES);
    printf("%-18s %9s %9s %9s %9s %9s %14s\n", "", "bytes", "C", "library", "library/C", "memcpy", "library/memcpy");
    print_save("full memories", 1, SAVERS);
    print_save("empty memories", 0, COPY);
}

/* Short runs are repeated, so that a timed stretch has a million steps or more. */
static void print_growth(void)
{
    double times[ENGINES][ROUNDS];
    printf("\nTime of a run by its steps (%s, median of %d)\n", load.name, GROWTH_ROUNDS);
    printf("%-12s %*s %*s\n%-12s", "", 12 * ENGINES - 1, "microseconds", 10 * ENGINES - 1, "ns/step", "steps");
    for (int i = 0; i < 2 * ENGINES; i++)
        printf(" %*s", i < ENGINES ? 11 : 9, engines[i % ENGINES].name);
    printf("\n");
    for (uint32_t steps = 1; steps <= GROWTH_STEPS; steps *= 10) {
        measure(times, GROWTH_ROUNDS, steps, steps < 1000000 ? (int)(1000000 / steps) : 1);
        printf("%-12u", steps);
        for (int engine = 0; engine < ENGINES; engine++)
            printf(" %11.3f", 1e6 * median(times[engine], GROWTH_ROUNDS));
        for (int engine = 0; engine < ENGINES; engine++)
            printf(" %9.2f", 1e9 * median(times[engine], GROWTH_ROUNDS) / steps);
        printf("\n");
        fflush(stdout);
    }
}

static void print_cpu(void)
{
    char line[256];
    FILE *info = fopen("/proc/cpuinfo", "r");
    if (info == NULL)
        return;
    while (fgets(line, sizeof line, info) != NULL)
        if (strncmp(line, "model name", 10) == 0) {
            printf("CPU%s", strchr(line, ':'));
            break;
        }
    fclose(info);
}

static void random_of_seed(Workload *into)
{
    random_program(into, RANDOM_SEED);
}

static void (*const workloads[])(Workload *) = { alu_loop, loads_and_stores, mix, mix_with_products, random_of_seed };

enum { WORKLOADS = sizeof workloads / sizeof *workloads };

/* A run that takes lines, by all engines, with a journal and back, then in calls with budget 1. */
static void check_lines(void)
{
    double times[KEEPERS * FORMS][ROUNDS];
    lines(&load);
    repeat.budget = LINE_STEPS;
    repeat.calls = 1;
    timed_form(C * FORMS + WITHOUT);
    keep_as_expected();
    if (expected.reply.usage.taken != LINES) {
        fprintf(stderr, "%s: C took %u of %d\n", load.name, (unsigned)expected.reply.usage.taken, LINES);
        exit(1);
    }
    in_rounds(times, KEEPERS * FORMS, FORMS, 1, timed_form, check_form);
    repeat.budget = 1;
    repeat.calls = LINE_STEPS;
    timed_calls(C);
    keep_as_expected();
    in_rounds(times, CALLED, 1, 1, timed_calls, check_run);
}

/* A run that stops at a locked byte, by all engines, and a save that leaves it as zero. */
static void check_locked(void)
{
    loads_and_stores(&load);
    load.start.locked = 1;
    load.start.first_locked = load.start.last_locked = LOCKED_BYTE;
    for (int engine = C; engine < ENGINES; engine++) {
        clear(1);
        lent.reply = run(engine, load.start, COUNTED_STEPS);
        if (engine == C)
            keep_as_expected();
        check_run(engine);
    }
    if (expected.reply.stop != 4) {
        fprintf(stderr, "%s: C did not stop at the locked byte\n", load.name);
        exit(1);
    }
    timed_saves(C);
    expected_save = saved;
    timed_saves(LIBRARY);
    check_save(LIBRARY);
}

/* The first table, and what counting costs C. */
static void print_steps(void)
{
    const char *names[WORKLOADS];
    double counting[WORKLOADS];
    printf("Runs of %d steps, %d rounds: median ns/step, and median of the ratios in a round\n%-18s", STEPS, ROUNDS, "");
    for (int engine = 0; engine < ENGINES; engine++)
        printf(" %9s", engines[engine].name);
    printf(" %9s %9s %9s\n", "flat/C", "rules/C", "table/C");
    for (int i = 0; i < WORKLOADS; i++) {
        workloads[i](&load);
        names[i] = load.name;
        counting[i] = print_ratios();
    }
    printf("C counting to C without");
    for (int i = 0; i < WORKLOADS; i++)
        printf("%s %.2f %s", i == 0 ? ":" : ",", counting[i], names[i]);
    printf("\n(seed %d; its last %d steps visit %d addresses)\n", RANDOM_SEED, LATE_STEPS, late_addresses());
}

/* The second table. */
static void print_journals(void)
{
    begin_forms(JOURNAL_PLACES, 1);
    for (int i = 0; i < WORKLOADS; i++) {
        workloads[i](&load);
        print_forms();
    }
}

static void print_pages(void)
{
    printf("\nA page of %d trims with budget %d and the runs of %d steps that it is, %d rounds: median milliseconds, and median of "
           "the ratios in a round\n", TRIMS, PAGE_STEPS, SHARE, ROUNDS);
    printf("%-18s %11s %11s %11s %11s %11s %11s\n", "", "rules, runs", "page", "table, runs", "page", "rules ratio",
           "table ratio");
    for (int i = 0; i < WORKLOADS; i++) {
        workloads[i](&load);
        print_page();
    }
}

/* Where callgrind ends a count (bench/instructions). */
__attribute__((noinline)) void counted(void)
{
    __asm__ volatile("");
}

/* Runs and steps back whose instructions are counted: what, by which engine, and how many steps. What they left is checked. */
static void count_forms(const char *what, int steps)
{
    static const char *const names[FORMS] = { "", ", with a journal", ", back" };
    for (int kind = 0; kind < KEEPERS * FORMS; kind++) {
        printf("%s%s\t%s\t%d\n", what, names[kind % FORMS], engines[kind / FORMS].name, steps);
        timed_form(kind);
        counted();
        if (kind == C * FORMS + WITHOUT)
            keep_as_expected();
        check_form(kind);
    }
}

/* The same by the engines that keep no journal. */
static void count_others(const char *what, int kinds, int steps)
{
    for (int kind = KEEPERS; kind < kinds; kind++) {
        printf("%s\t%s\t%d\n", what, engines[kind].name, steps);
        timed_calls(kind);
        counted();
        check_run(kind);
    }
}

static void count_workload(void (*make)(Workload *))
{
    make(&load);
    count_forms(load.name, COUNTED_STEPS);
    count_others(load.name, ENGINES, COUNTED_STEPS);
}

/* One run of each engine on each workload and on one with a range locked, then calls with budget 1. */
static void run_all_counted(void)
{
    repeat.budget = COUNTED_STEPS;
    repeat.calls = 1;
    for (int i = 0; i < WORKLOADS; i++)
        count_workload(workloads[i]);
    count_workload(loads_beside_range);
    mix(&load);
    repeat.budget = 1;
    repeat.calls = COUNTED_CALLS;
    count_forms("calls of a step", COUNTED_CALLS);
    count_others("calls of a step", CALLED, COUNTED_CALLS);
}

/* The times of steps and of pages; with the argument `pages`, just those of pages; with `calls`, the costs of calls, the growth and
   the costs of saves; with `counted`, the runs whose instructions are counted. */
int main(int argc, char **argv)
{
    const char *what = argc > 1 ? argv[1] : "";
    lent.log = new_places(GROWTH_STEPS / STEPS_PER_OUT + 1);
    expected.log = new_places(GROWTH_STEPS / STEPS_PER_OUT + 1);
    journal = new_places(JOURNAL_PLACES);
    if (strcmp(what, "counted") == 0) {
        run_all_counted();
        return 0;
    }
    if (strcmp(what, "pages") == 0) {
        print_pages();
        return 0;
    }
    check_lines();
    check_locked();
    if (strcmp(what, "calls") == 0) {
        mix(&load);
        print_call_costs();
        begin_forms(1, JOURNAL_PLACES);
        print_forms();
        print_growth();
        print_save_costs();
        return 0;
    }
    print_cpu();
    print_steps();
    print_journals();
    print_pages();
    return 0;
}
