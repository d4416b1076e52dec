/* The SISA trim processor: loading a trim, running it by the rules or by the control table, running several of them as a page,
   stepping back, saving it, writing it as text, and reading and writing one instruction. Link libsisa.a (tools/staticlib).

   There are two boards, and a load names one of them. The board with two memories fetches instructions from the program. The
   single-memory board fetches them from data memory, each just before its step: a store may change the instruction that
   follows. The program is lent there too; the load zeroes it, and it is never read.

   A slice is passed as a pointer and the number of its elements. A pointer is never null, also where the number is 0, and no two
   slices of a call overlap. Beyond that every value of every argument is allowed. A memory is 65,536 bytes, an array of ports
   256 words, and a page is lent as many of each as it has trims, joined; any other length is refused with 1. A refusal is its
   number in the refusal table of documents 01 and 02, 0 where the call was accepted; a refused call changes nothing lent. Fields
   that a case does not speak of are 0. Every function runs in a thread with 128 KiB of stack. */
#ifndef SISA_H
#define SISA_H

#include <stddef.h>
#include <stdint.h>

#ifdef __cplusplus
extern "C" {
#endif

/* R0 to R7, PC, n, the count of steps done, and `journaled`, the count of journal entries: how many of the last steps runs
   kept a journal of. It is 0 from a load, and from an accepted run without a journal, in a page too. Then `board`: 0 the one
   with two memories, any other number the single-memory one. It is 0 or 1 from a load, and all other calls leave it as it is.
   Then the interrupts: lines are taken where `enabled` is not 0; bit k of `pending` says that line k waits; `line` and
   `return_address` are the number of the line taken last and PC before it. They are 0 from a load. PC and the return address are
   even; a state where one of them is odd is refused with 5. Then the locked range of data memory: none where `locked` is 0, else
   the bytes `first_locked` to `last_locked`, both in it, and no byte where the first is over the last. All calls but a load leave
   it as it is. */
typedef struct {
    uint16_t r[8];
    uint16_t pc;
    uint32_t n;
    uint64_t journaled;
    uint8_t board;
    uint8_t enabled;
    uint8_t pending;
    uint8_t line;
    uint16_t return_address;
    uint8_t locked;
    uint16_t first_locked;
    uint16_t last_locked;
} SisaState;

/* What a load replies. The state is the reset one of the board loaded for, with the range named, and all 0 where the load is
   refused. */
typedef struct {
    SisaState state;
    uint8_t refusal;
} SisaLoad;

/* What a save replies: the state as handed, also where the save is refused, the refusal, and the file's length. */
typedef struct {
    SisaState state;
    uint8_t refusal;
    size_t length;
} SisaSaved;

/* What assembling replies: how many words there are; or the refusal and the line, from 1, that is turned away (0 with
   number 1). */
typedef struct {
    uint8_t refusal;
    uint32_t line;
    uint32_t words;
} SisaAssembly;

/* The counts of a run: steps by kind, in the kinds' order, steps that took a line, and how many steps read and wrote each
   register, a register once a step. Kinds and lines taken sum to the steps. All are 0 where the run is refused. */
typedef struct {
    uint64_t kinds[34];
    uint64_t taken;
    uint64_t reads[8];
    uint64_t writes[8];
} SisaUsage;

/* A usage sheet for a show: the counts of the accepted runs that were fed to it, modulo 2^64, and how many they were. All zero is
   the empty sheet. */
typedef struct {
    uint64_t kinds[34];
    uint64_t taken;
    uint64_t reads[8];
    uint64_t writes[8];
    uint16_t runs;
} SisaSheet;

/* What feeding replies: the sheet, as it was where the feeding is refused. */
typedef struct {
    SisaSheet sheet;
    uint8_t refusal;
} SisaFed;

/* What a run replies: the state (as handed, where the run is refused), the refusal, the stop reason (0 budget used or journal
   full, 1 unassigned word, 2 OUT with the log full, 3 DIV or DIVU by zero, 4 a fetch, load or store that touches a locked byte),
   the steps taken, the entries written to the log, the ticks that these steps take on the multicycle board (3 an instruction,
   and 4 for LD, ST, LDB and STB), and the counts. */
typedef struct {
    SisaState state;
    uint8_t refusal;
    uint8_t stop;
    uint32_t steps;
    uint64_t entries;
    uint64_t ticks;
    SisaUsage usage;
} SisaRun;

/* What a host step replies: SisaRun without the state, which the host holds; and what a page replies of each trim. */
typedef struct {
    uint8_t refusal;
    uint8_t stop;
    uint32_t steps;
    uint64_t entries;
    uint64_t ticks;
    SisaUsage usage;
} SisaAnswer;

/* The states of a page's trims; those past the number of its trims are handed back as they are. */
typedef struct {
    SisaState states[8];
} SisaTrims;

/* What a page replies: every state (as handed, where the page is refused), the refusal, and an answer for each trim as of one run
   without a journal. In a refused page all eight answers have the page's refusal and are 0 else, so that what is fed of them adds
   nothing. In an accepted one the answers of trims past the count are 0: feed those below the count. */
typedef struct {
    SisaTrims trims;
    uint8_t refusal;
    SisaAnswer answers[8];
} SisaPage;

/* What stepping back replies: the state (as handed, where it is refused), the refusal, and how many log entries fall away: as
   many as the steps taken back wrote. */
typedef struct {
    SisaState state;
    uint8_t refusal;
    uint64_t entries;
} SisaBack;

/* What raising a line replies: the state, as handed where it is refused. */
typedef struct {
    SisaState state;
    uint8_t refusal;
} SisaRaised;

/* An instruction: its kind, 0 to 24 in the reference sheet's order (AND 0, .. OUT 24), then 25 MUL, 26 MULH, 27 MULHU, 28 DIV,
   29 DIVU, 30 EI, 31 DI, 32 RETI, 33 GETIID; and its parts; or assigned 0. Beside it
   which registers it touches, bit k for Rk: those whose value it uses, and the one that it writes, if any; both are 0 where
   the word is unassigned. */
typedef struct {
    uint8_t assigned;
    uint8_t kind;
    uint8_t a;
    uint8_t b;
    uint8_t d;
    int16_t n;
    uint8_t reads;
    uint8_t writes;
} SisaInstruction;

typedef struct {
    uint8_t refusal;
    uint16_t word;
} SisaWord;

/* A part of the memory chosen: its bytes start .. start + count. Both are 0 for the empty part. */
typedef struct {
    size_t start;
    size_t count;
} SisaWindow;

/* Copies the file's parts to the program and the data memory, and zeroes all other memory and both arrays of ports. The board is
   0 for two memories, any other number for the single memory. For that one both parts go to data memory, the program part from
   address 0 on and straight after it the data part, and all of the program is zeroed; parts that are more than 65,536 bytes
   together are refused with 15. `locked` not 0 locks the bytes `first` to `last` of data memory, both among them, which the state
   keeps with the flag 1; a first over the last is refused with 18. With `locked` 0 there is no range, and the state's three
   fields are 0. */
SisaLoad sisa_load(const uint8_t *file, size_t file_len,
                   uint8_t board,
                   uint8_t locked, uint16_t first, uint16_t last,
                   uint8_t *program, size_t program_len,
                   uint8_t *memory, size_t memory_len,
                   uint16_t *inputs, size_t inputs_len,
                   uint16_t *outputs, size_t outputs_len);

/* Writes the trim file of both memories to the front of the destination, whose unused end keeps its bytes: the program
   from offset 16 on, without its trailing zero words, and straight after it the data, without its trailing zero bytes. Where
   the state is one of the single-memory board the file has no program words (W is 0), whatever the program holds, and data
   memory as its data. Bytes that the state locks are written as zero, and trailing zeros are dropped then. Loading the file for
   the state's board and range gives back both memories, on the single-memory board data memory, with the program zero; locked
   bytes come back as zero. A destination shorter than the file is refused with 9. A file can have 131,088 bytes, 65,552 on the
   single-memory board; panelrun takes files of at most 65,536, and loads them for two memories and without a range. */
SisaSaved sisa_save(SisaState state,
                    const uint8_t *program, size_t program_len,
                    const uint8_t *memory, size_t memory_len,
                    uint8_t *destination, size_t destination_len);

/* Assembles a text of at most 65,536 bytes, one instruction a line (docs/TEXT.md has the language), into a program memory from
   address 0 on; bytes past the words stay. The first bad line is refused with the lowest number that holds of it: 10, it is
   outside the grammar or past a stated size; 11, a name is unknown or was given before; 12, a value does not fit its field. */
SisaAssembly sisa_assemble(const uint8_t *text, size_t text_len, uint8_t *program, size_t program_len);

/* The input at a port becomes the value. Replies 0 or the refusal. */
uint8_t sisa_set_input(uint16_t *inputs, size_t inputs_len, uint8_t port, uint16_t value);

/* Raises one of the lines 0 to 7: its bit of `pending` is set, set or not before. A line over 7 is refused with 16, and the state
   is as handed. */
SisaRaised sisa_raise(SisaState state, uint8_t line);

/* A run of at most `budget` steps by the rules, on the board that the state names. An entry of the log is n before the step
   times 16,777,216, plus the port times 65,536, plus the value. Places of the log after the entries written keep their content.
   Input 0 is a key's status and input 1 its data: IN from port 1 also sets input 0 to 0, so that a press is read only one time.
   A run changes no other input. Where lines are enabled and one is pending, the lowest is taken before the next fetch, which is a
   step of its own: PC is kept in `return_address`, the line's number in `line`, its bit and `enabled` become 0 and PC 0x0100. */
SisaRun sisa_run_by_rules(SisaState state,
                          const uint8_t *program, size_t program_len,
                          uint8_t *memory, size_t memory_len,
                          uint16_t *inputs, size_t inputs_len,
                          uint16_t *outputs, size_t outputs_len,
                          uint32_t budget,
                          uint64_t *log, size_t log_len);

/* The same run by the control table. */
SisaRun sisa_run_by_table(SisaState state,
                          const uint8_t *program, size_t program_len,
                          uint8_t *memory, size_t memory_len,
                          uint16_t *inputs, size_t inputs_len,
                          uint16_t *outputs, size_t outputs_len,
                          uint32_t budget,
                          uint64_t *log, size_t log_len);

/* The same two runs with a journal. Each step writes an entry, what it overwrites, in a coding of the library's, to the place
   `journaled`, which grows by 1; all other places keep their content. A full journal counts as a used budget (stop 0), and it is
   full where it has no more than `journaled` places. So a journal of no places is a full one: the run takes no step. */
SisaRun sisa_run_by_rules_with_journal(SisaState state,
                                       const uint8_t *program, size_t program_len,
                                       uint8_t *memory, size_t memory_len,
                                       uint16_t *inputs, size_t inputs_len,
                                       uint16_t *outputs, size_t outputs_len,
                                       uint32_t budget,
                                       uint64_t *log, size_t log_len,
                                       uint64_t *journal, size_t journal_len);

SisaRun sisa_run_by_table_with_journal(SisaState state,
                                       const uint8_t *program, size_t program_len,
                                       uint8_t *memory, size_t memory_len,
                                       uint16_t *inputs, size_t inputs_len,
                                       uint16_t *outputs, size_t outputs_len,
                                       uint32_t budget,
                                       uint64_t *log, size_t log_len,
                                       uint64_t *journal, size_t journal_len);

/* A page runs 1 to 8 trims, `count` of them, under one budget, each with its own state, memories and ports: those of trim 0,
   then those of trim 1 and so on, joined without gaps. The log is in equal parts, its length divided by the count, rounded down:
   trim i's part begins at i times that, and the answer's `entries` says how many of its places are filled. Places after them,
   and past all parts, keep their content.
   In order, each trim runs with the budget divided by the count, rounded down. What is unused then goes whole to the first, what
   it leaves to the next, and so on, each log part filled further. A trim that is left nothing keeps its first stop reason;
   another's is that of its second run. `steps`, `entries`, `ticks` and counts are of both. Steps total at most the budget, and
   less exactly where no trim ends with stop 0.
   No trims or more than 8 are refused with 17, before all other tests. Then 1 tests the joined lengths, and then each trim in
   order 5 and 6, as a run with the whole budget would; the first trim that is turned away decides for the page. */
SisaPage sisa_page_by_rules(SisaTrims trims, uint8_t count,
                            const uint8_t *programs, size_t programs_len,
                            uint8_t *memories, size_t memories_len,
                            uint16_t *inputs, size_t inputs_len,
                            uint16_t *outputs, size_t outputs_len,
                            uint32_t budget,
                            uint64_t *log, size_t log_len);

/* The same page by the control table. */
SisaPage sisa_page_by_table(SisaTrims trims, uint8_t count,
                            const uint8_t *programs, size_t programs_len,
                            uint8_t *memories, size_t memories_len,
                            uint16_t *inputs, size_t inputs_len,
                            uint16_t *outputs, size_t outputs_len,
                            uint32_t budget,
                            uint64_t *log, size_t log_len);

/* Goes back k steps. Given state, memory, outputs and journal as the counted steps left them, registers, PC, n, data and outputs
   become those of k steps earlier, and `journaled` is less by k. Inputs stay as set, but input 0 becomes what it held before the
   earliest IN from port 1 that is taken back, where there is one, even if it was set since. Program and journal stay as they are;
   running k steps again with the inputs of the first time, and no line raised since, writes the same log entries. A usage sheet is
   not taken back. `enabled`, `line` and `return_address` become those of k steps earlier, a line taken among them is pending again,
   and lines raised since stay pending.
   A journal holds as many steps as the lesser of `journaled` and n, or none where it is shorter than `journaled`; where these
   are fewer than k, the call is refused with 14. So an accepted run without a journal, be it a host step, in a page or of budget
   0, ends what can be stepped back. The journal may hold any numbers; others than runs wrote may leave PC odd, so that the next
   call is refused with 5, or write locked bytes, which the entries of a run under the same range never do. */
SisaBack sisa_step_back(SisaState state,
                        const uint8_t *program, size_t program_len,
                        uint8_t *memory, size_t memory_len,
                        uint16_t *inputs, size_t inputs_len,
                        uint16_t *outputs, size_t outputs_len,
                        const uint64_t *journal, size_t journal_len,
                        uint64_t k);

/* A run by the table with budget 1 and no journal, over the state that the host holds. */
SisaAnswer sisa_host_step(SisaState *state,
                          const uint8_t *program, size_t program_len,
                          uint8_t *memory, size_t memory_len,
                          uint16_t *inputs, size_t inputs_len,
                          uint16_t *outputs, size_t outputs_len,
                          uint64_t *log, size_t log_len);

/* Adds to a sheet what a run returned: the counts of an accepted one (run_refusal 0), nothing of a refused one. An accepted run is
   refused with 13 where the sheet has 65,535 of them. Any sheet and any counts may be handed in. */
SisaFed sisa_feed(SisaSheet sheet, uint8_t run_refusal, SisaUsage usage);

/* The instruction that a word is, and the registers that it reads and writes. */
SisaInstruction sisa_read(uint16_t word);

/* The word of an instruction. A kind over 33, a part out of range and an unused part that is not 0 are refused with 7. */
SisaWord sisa_write(uint8_t kind, uint8_t a, uint8_t b, uint8_t d, int16_t n);

/* The bytes start .. start + count of the data memory (of_data not 0) or of the program (of_data 0); the empty part
   where they end beyond the memory lent, whatever its length, or where a byte of data memory among them is locked. On the
   single-memory board the instructions are in data memory, and a window on the program shows the zeros that the load left
   there. */
SisaWindow sisa_window(SisaState state,
                       const uint8_t *program, size_t program_len,
                       const uint8_t *memory, size_t memory_len,
                       uint8_t of_data, size_t start, size_t count);

#ifdef __cplusplus
}
#endif

#endif
