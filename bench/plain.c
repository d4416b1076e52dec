/* The interpreter that the engines are measured against: a switch on the opcode, for opcodes 0, 1 and 11 one on f, the
   registers in a local array, each word fetched from the program's bytes, lines taken before that, and loads and stores held to
   the bytes that are not locked. */
#include "interpreter.h"

#include <string.h>

/* Opcode 0 by f. */
static inline uint16_t operate(unsigned f, uint16_t a, uint16_t b)
{
    switch (f) {
    case 0: return a & b;
    case 1: return a | b;
    case 2: return a ^ b;
    case 3: return (uint16_t)~a;
    case 4: return (uint16_t)(a + b);
    case 5: return (uint16_t)(a - b);
    case 6: return shift((int16_t)a, b);
    default: return shift(a, b);
    }
}

/* Opcode 1 by f: 1 or 0, or -1 where f is unassigned. */
static inline int compare(unsigned f, uint16_t a, uint16_t b)
{
    switch (f) {
    case 0: return (int16_t)a < (int16_t)b;
    case 1: return (int16_t)a <= (int16_t)b;
    case 3: return a == b;
    case 4: return a < b;
    case 5: return a <= b;
    default: return -1;
    }
}

/* Opcode 11 by f: the result, or -1 where f is unassigned, -3 where the divisor is zero. */
static inline int multiply(unsigned f, uint16_t a, uint16_t b)
{
    switch (f) {
    case 0: return (uint16_t)((uint32_t)a * b);
    case 1: return high_signed(a, b);
    case 2: return high_unsigned(a, b);
    case 4: return b != 0 ? divide_signed(a, b) : -3;
    case 5: return b != 0 ? a / b : -3;
    default: return -1;
    }
}

/* Ra+SE(N6) */
#define ADDRESS (uint16_t)(r[a] + extend6(w))

static SisaRun run_accepted(SisaState state, const uint8_t *restrict program, uint8_t *restrict memory,
                            uint16_t *restrict inputs, uint16_t *restrict outputs, uint32_t budget,
                            uint64_t *restrict log, size_t log_len, uint64_t *restrict journal, size_t journal_len)
{
    uint16_t r[8], pc = state.pc;
    SisaUsage usage = { .kinds = { 0 } };
    uint32_t steps = 0;
    size_t entries = 0;
    uint8_t stop = 0;
    const Range range = range_of(&state);
    budget = allowed(budget, state.journaled, journal_len);
    memcpy(r, state.r, sizeof r);
    while (steps < budget) {
        if (TAKES_LINE) {
            TAKE_LINE();
            continue;
        }
        uint16_t w = load_word(program, pc), next = (uint16_t)(pc + 2);
        unsigned a = w >> 9 & 7, b = w >> 6 & 7, d = w >> 3 & 7, f = w & 7, e = w >> 8 & 1;
        int x;
        switch (w >> 12) {
        case 0: PUT_REGISTER(d, operate(f, r[a], r[b])); count(&usage, f, a, f == NOT ? NONE : b, d); break;
        case 1:
            if ((x = compare(f, r[a], r[b])) < 0) { stop = 1; goto stopped; }
            PUT_REGISTER(d, x); count(&usage, CMPLT + f - (f > 2), a, b, d); break;
        case 2: PUT_REGISTER(b, ADDRESS); count(&usage, ADDI, a, NONE, b); break;
        case 3:
            if (LOCKED_WORD(ADDRESS)) { stop = 4; goto stopped; }
            PUT_REGISTER(b, load_word(memory, ADDRESS)); count(&usage, LD, a, NONE, b); break;
        case 4:
            if (LOCKED_WORD(ADDRESS)) { stop = 4; goto stopped; }
            PUT_WORD(ADDRESS, r[b]); count(&usage, ST, a, b, NONE); break;
        case 5:
            if (LOCKED_BYTE(ADDRESS)) { stop = 4; goto stopped; }
            PUT_REGISTER(b, extend8(memory[ADDRESS])); count(&usage, LDB, a, NONE, b); break;
        case 6:
            if (LOCKED_BYTE(ADDRESS)) { stop = 4; goto stopped; }
            PUT_BYTE(ADDRESS, r[b]); count(&usage, STB, a, b, NONE); break;
        case 7: x = r[a] & 0xFFFE; PUT_REGISTER(b, next); next = (uint16_t)x; count(&usage, JALR, a, NONE, b); break;
        case 8:
            PUT_NOTHING(); if ((r[a] == 0) != e) next = (uint16_t)(next + 2 * extend8(w));
            count(&usage, BZ + e, a, NONE, NONE); break;
        case 9:
            PUT_REGISTER(a, e != 0 ? w << 8 | (r[a] & 255) : extend8(w));
            count(&usage, MOVI + e, e != 0 ? a : NONE, NONE, a); break;
        case 10:
            if (e == 0) { PUT_INPUT(a, w & 255); count(&usage, IN, NONE, NONE, a); break; }
            if (entries == log_len) { stop = 2; goto stopped; }
            PUT_OUTPUT(w & 255, r[a]); count(&usage, OUT, a, NONE, NONE);
            log[entries++] = (uint64_t)(state.n + steps) << 24 | (uint64_t)(w & 255) << 16 | r[a]; break;
        case 11:
            if ((x = multiply(f, r[a], r[b])) < 0) { stop = (uint8_t)-x; goto stopped; }
            PUT_REGISTER(d, x); count(&usage, MUL + f - (f > 3), a, b, d); break;
        case 12:
            if (f > 3) { stop = 1; goto stopped; }
            if (f == 3) { PUT_REGISTER(d, state.line); count(&usage, GETIID, NONE, NONE, d); break; }
            PUT_ENABLED(f != 1); if (f == 2) next = state.return_address;
            count(&usage, EI + f, NONE, NONE, NONE); break;
        default: stop = 1; goto stopped;
        }
        pc = next;
        steps++;
    }
stopped:
    memcpy(state.r, r, sizeof r);
    state.pc = pc;
    state.n += steps;
    state.journaled = JOURNALING ? state.journaled + steps : 0;
    return (SisaRun){
        .state = state, .stop = stop, .steps = steps, .entries = entries, .ticks = ticks_of(steps, &usage), .usage = usage,
    };
}

SisaRun plain_run(SisaState state,
                  const uint8_t *program, size_t program_len,
                  uint8_t *memory, size_t memory_len,
                  uint16_t *inputs, size_t inputs_len,
                  uint16_t *outputs, size_t outputs_len,
                  uint32_t budget,
                  uint64_t *log, size_t log_len JOURNAL_PARAMETERS)
{
    uint8_t refusal = refusal_of(&state, program_len, memory_len, inputs_len, outputs_len, budget);
    if (refusal != 0)
        return (SisaRun){ .state = state, .refusal = refusal };
    return run_accepted(state, program, memory, inputs, outputs, budget, log, log_len, JOURNAL);
}
