/* What the C interpreters share. Every address is 16-bit, so none lies outside a memory of 65,536 bytes. */
#ifndef INTERPRETER_H
#define INTERPRETER_H

#include "plain.h"

static inline uint16_t extend6(uint16_t w) { return (uint16_t)(((w & 63) ^ 32) - 32); }
static inline uint16_t extend8(uint16_t w) { return (uint16_t)(int8_t)w; }

/* The word at an address with bit 0 cleared. */
static inline uint16_t load_word(const uint8_t *bytes, uint16_t address)
{
    const uint8_t *at = bytes + (address & 0xFFFE);
    return (uint16_t)(at[0] | at[1] << 8);
}

static inline void store_word(uint8_t *bytes, uint16_t address, uint16_t v)
{
    uint8_t *at = bytes + (address & 0xFFFE);
    at[0] = (uint8_t)v;
    at[1] = (uint8_t)(v >> 8);
}

/* IN's read of a port: from port 1 input 0 then becomes 0. */
static inline uint16_t read_input(uint16_t *inputs, unsigned port)
{
    uint16_t v = inputs[port];
    if (port == 1)
        inputs[0] = 0;
    return v;
}

/* x, of which the fill stands above bit 15, shifted by the low 5 bits of b read as signed. */
static inline uint16_t shift(int32_t x, uint16_t b)
{
    int k = ((b & 31) ^ 16) - 16;
    return (uint16_t)(k < 0 ? x >> -k : (int32_t)((uint32_t)x << k));
}

/* The high half of a signed product, and of an unsigned one. */
static inline uint16_t high_signed(uint16_t a, uint16_t b) { return (uint16_t)((int16_t)a * (int16_t)b >> 16); }
static inline uint16_t high_unsigned(uint16_t a, uint16_t b) { return (uint16_t)((uint32_t)a * b >> 16); }

/* The low 16 bits of a signed quotient, rounded toward zero; b is not 0. */
static inline uint16_t divide_signed(uint16_t a, uint16_t b) { return (uint16_t)((int16_t)a / (int16_t)b); }

/* The locked bytes of data memory, first to last; where there are none, first is past the memory. */
typedef struct {
    uint32_t first, last;
} Range;

static inline Range range_of(const SisaState *state)
{
    int none = state->locked == 0 || state->first_locked > state->last_locked;
    return none ? (Range){ MEMORY_BYTES, 0 } : (Range){ state->first_locked, state->last_locked };
}

/* One of the bytes from `at` to `end` is locked. */
static inline int is_locked(Range range, uint16_t at, uint16_t end)
{
    return __builtin_expect(end >= range.first, 0) && at <= range.last;
}

/* Kinds by their number. */
enum {
    AND, OR, XOR, NOT, ADD, SUB, SHA, SHL, CMPLT, CMPLE, CMPEQ, CMPLTU, CMPLEU, ADDI, LD, ST, LDB, STB, JALR, BZ, BNZ, MOVI,
    MOVHI, IN, OUT, MUL, MULH, MULHU, DIV, DIVU, EI, DI, RETI, GETIID,
};

/* No register. */
enum { NONE = 8 };

/* uncounted.c says 0. */
#ifndef COUNTING
#define COUNTING 1
#endif

/* Counts a step of this kind that reads the registers a and b and writes d. */
static inline void count(SisaUsage *usage, unsigned kind, unsigned a, unsigned b, unsigned d)
{
    if (!COUNTING)
        return;
    usage->kinds[kind]++;
    if (a != NONE)
        usage->reads[a]++;
    if (b != NONE && b != a)
        usage->reads[b]++;
    if (d != NONE)
        usage->writes[d]++;
}

/* The ticks on the multicycle board: 3 an instruction, and 4 for LD, ST, LDB and STB. */
static inline uint64_t ticks_of(uint32_t steps, const SisaUsage *usage)
{
    const uint64_t *kinds = usage->kinds;
    return COUNTING ? 3 * (uint64_t)steps + kinds[LD] + kinds[ST] + kinds[LDB] + kinds[STB] : 0;
}

/* What a step overwrites. KEY is a register and input 0, the register's number 8 bits above it. TAKEN is the return address, the
   enable flag and, 8 bits above that, the line number; the line taken is 8 bits above TAKEN. */
enum { NOTHING, REGISTER, WORD, BYTE, OUTPUT, KEY, ENABLED, TAKEN };

/* An entry of the journal, from the low bits on: PC before the step, what was held, where, and which of these held it. */
static inline uint64_t entry_of(uint16_t pc, uint16_t held, uint16_t where, unsigned what)
{
    return pc | (uint64_t)held << 16 | (uint64_t)where << 32 | (uint64_t)what << 48;
}

/* journaled.c and journaled_flat.c say 1: a run has two parameters more, and a step keeps its entry. */
#ifndef JOURNALING
#define JOURNALING 0
#endif
#if JOURNALING
#define JOURNAL_PARAMETERS , uint64_t *journal, size_t journal_len
#define JOURNAL journal, journal_len
#define KEEP(held, where, what) (journal[state.journaled + steps] = entry_of(pc, held, where, what))
#else
#define JOURNAL_PARAMETERS
#define JOURNAL NULL, 0
#define KEEP(held, where, what) (void)journal
#endif

/* What taking a line changes, but for PC. */
static inline void take(SisaState *state, unsigned line, uint16_t pc)
{
    state->pending &= (uint8_t)~(1u << line);
    state->line = (uint8_t)line;
    state->return_address = pc;
    state->enabled = 0;
}

/* What a step of run_accepted writes, its entry kept first. */
#define PUT_NOTHING() KEEP(0, 0, NOTHING)
#define PUT_REGISTER(k, v) (KEEP(r[k], k, REGISTER), r[k] = (uint16_t)(v))
#define PUT_INPUT(k, port) \
    (KEEP(r[k], (port) == 1 ? inputs[0] : (k), (port) == 1 ? KEY | (k) << 8 : REGISTER), r[k] = read_input(inputs, port))
#define PUT_WORD(at, v) (KEEP(load_word(memory, at), (at) & 0xFFFE, WORD), store_word(memory, at, v))
#define PUT_BYTE(at, v) (KEEP(memory[at], at, BYTE), memory[at] = (uint8_t)(v))
#define PUT_OUTPUT(port, v) (KEEP(outputs[port], port, OUTPUT), outputs[port] = (v))
#define PUT_ENABLED(v) (KEEP(state.enabled, 0, ENABLED), state.enabled = (v))
#define PUT_TAKEN(k) \
    (KEEP(state.return_address, (uint16_t)(state.enabled | state.line << 8), TAKEN | (k) << 8), take(&state, k, pc))

/* Before a step's fetch: where lines are enabled and one is pending, the lowest is taken, which is a step. */
#define TAKES_LINE __builtin_expect(state.enabled != 0 && state.pending != 0, 0)
#define TAKE_LINE() \
    (PUT_TAKEN((unsigned)__builtin_ctz(state.pending)), usage.taken += COUNTING, pc = 0x0100, steps++)

/* A load or store of run_accepted touches a locked byte of the word or byte at an address. */
#define LOCKED_WORD(at) is_locked(range, (at) & 0xFFFE, (at) | 1)
#define LOCKED_BYTE(at) is_locked(range, at, at)

/* The steps that a run may take: a full journal counts as a used budget. */
static inline uint32_t allowed(uint32_t budget, uint64_t journaled, size_t journal_len)
{
    uint64_t left = journaled < journal_len ? journal_len - journaled : 0;
    return JOURNALING && left < budget ? (uint32_t)left : budget;
}

/* What is refused of every call on a machine, or 0. */
static inline uint8_t refusal_of_lent(const SisaState *state, size_t program_len, size_t memory_len, size_t inputs_len,
                                      size_t outputs_len)
{
    if (program_len != MEMORY_BYTES || memory_len != MEMORY_BYTES || inputs_len != PORTS || outputs_len != PORTS)
        return 1;
    return (state->pc | state->return_address) % 2 != 0 ? 5 : 0;
}

/* The refusal of a run, 0 where it is accepted. */
static inline uint8_t refusal_of(const SisaState *state, size_t program_len, size_t memory_len, size_t inputs_len,
                                 size_t outputs_len, uint32_t budget)
{
    uint8_t refusal = refusal_of_lent(state, program_len, memory_len, inputs_len, outputs_len);
    if (refusal != 0)
        return refusal;
    return UINT32_MAX - state->n < budget ? 6 : 0;
}

#endif
