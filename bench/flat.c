/* The plain interpreter (plain.c) with one switch on opcode and f together. */
#include "interpreter.h"

#include <string.h>

/* What the switch goes by: the opcode, and f, which tells the instructions of opcodes 0, 1, 11 and 12 apart. */
#define CASE(opcode, f) ((opcode) << 3 | (f))
#define ANY_F(opcode) CASE(opcode, 0) ... CASE(opcode, 7)

/* The registers that a word names at bits 11..9, 8..6 and 5..3, by number, e, and the address Ra+SE(N6). */
#define A (w >> 9 & 7)
#define B (w >> 6 & 7)
#define D (w >> 3 & 7)
#define E (w >> 8 & 1)
#define ADDRESS (uint16_t)(r[A] + extend6(w))

#define COUNT(kind, a, b, d) count(&usage, kind, a, b, d)

static SisaRun run_accepted(SisaState state, const uint8_t *restrict program, uint8_t *restrict memory,
                            uint16_t *restrict inputs, uint16_t *restrict outputs, uint32_t budget,
                            uint64_t *restrict log, size_t log_len, uint64_t *restrict journal, size_t journal_len)
{
    uint16_t r[8], pc = state.pc;
    SisaUsage usage = { .kinds = { 0 } };
    uint32_t steps = 0;
    size_t entries = 0;
    uint8_t stop = 0;
    const Range range = range_of(&state);
    budget = allowed(budget, state.journaled, journal_len);
    memcpy(r, state.r, sizeof r);
    while (steps < budget) {
        if (TAKES_LINE) {
            TAKE_LINE();
            continue;
        }
        uint16_t w = load_word(program, pc), next = (uint16_t)(pc + 2), target;
        switch (CASE(w >> 12, w & 7)) {
        case CASE(0, 0): PUT_REGISTER(D, r[A] & r[B]); COUNT(AND, A, B, D); break;
        case CASE(0, 1): PUT_REGISTER(D, r[A] | r[B]); COUNT(OR, A, B, D); break;
        case CASE(0, 2): PUT_REGISTER(D, r[A] ^ r[B]); COUNT(XOR, A, B, D); break;
        case CASE(0, 3): PUT_REGISTER(D, ~r[A]); COUNT(NOT, A, NONE, D); break;
        case CASE(0, 4): PUT_REGISTER(D, r[A] + r[B]); COUNT(ADD, A, B, D); break;
        case CASE(0, 5): PUT_REGISTER(D, r[A] - r[B]); COUNT(SUB, A, B, D); break;
        case CASE(0, 6): PUT_REGISTER(D, shift((int16_t)r[A], r[B])); COUNT(SHA, A, B, D); break;
        case CASE(0, 7): PUT_REGISTER(D, shift(r[A], r[B])); COUNT(SHL, A, B, D); break;
        case CASE(1, 0): PUT_REGISTER(D, (int16_t)r[A] < (int16_t)r[B]); COUNT(CMPLT, A, B, D); break;
        case CASE(1, 1): PUT_REGISTER(D, (int16_t)r[A] <= (int16_t)r[B]); COUNT(CMPLE, A, B, D); break;
        case CASE(1, 3): PUT_REGISTER(D, r[A] == r[B]); COUNT(CMPEQ, A, B, D); break;
        case CASE(1, 4): PUT_REGISTER(D, r[A] < r[B]); COUNT(CMPLTU, A, B, D); break;
        case CASE(1, 5): PUT_REGISTER(D, r[A] <= r[B]); COUNT(CMPLEU, A, B, D); break;
        case ANY_F(2): PUT_REGISTER(B, ADDRESS); COUNT(ADDI, A, NONE, B); break;
        case ANY_F(3):
            if (LOCKED_WORD(ADDRESS)) { stop = 4; goto stopped; }
            PUT_REGISTER(B, load_word(memory, ADDRESS)); COUNT(LD, A, NONE, B); break;
        case ANY_F(4):
            if (LOCKED_WORD(ADDRESS)) { stop = 4; goto stopped; }
            PUT_WORD(ADDRESS, r[B]); COUNT(ST, A, B, NONE); break;
        case ANY_F(5):
            if (LOCKED_BYTE(ADDRESS)) { stop = 4; goto stopped; }
            PUT_REGISTER(B, extend8(memory[ADDRESS])); COUNT(LDB, A, NONE, B); break;
        case ANY_F(6):
            if (LOCKED_BYTE(ADDRESS)) { stop = 4; goto stopped; }
            PUT_BYTE(ADDRESS, r[B]); COUNT(STB, A, B, NONE); break;
        case ANY_F(7): target = r[A] & 0xFFFE; PUT_REGISTER(B, next); next = target; COUNT(JALR, A, NONE, B); break;
        case ANY_F(8):
            PUT_NOTHING(); if ((r[A] == 0) != E) next = (uint16_t)(next + 2 * extend8(w));
            COUNT(BZ + E, A, NONE, NONE); break;
        case ANY_F(9):
            PUT_REGISTER(A, E != 0 ? w << 8 | (r[A] & 255) : extend8(w));
            COUNT(MOVI + E, E != 0 ? A : NONE, NONE, A); break;
        case ANY_F(10):
            if (E == 0) { PUT_INPUT(A, w & 255); COUNT(IN, NONE, NONE, A); break; }
            if (entries == log_len) { stop = 2; goto stopped; }
            PUT_OUTPUT(w & 255, r[A]); COUNT(OUT, A, NONE, NONE);
            log[entries++] = (uint64_t)(state.n + steps) << 24 | (uint64_t)(w & 255) << 16 | r[A]; break;
        case CASE(11, 0): PUT_REGISTER(D, (uint32_t)r[A] * r[B]); COUNT(MUL, A, B, D); break;
        case CASE(11, 1): PUT_REGISTER(D, high_signed(r[A], r[B])); COUNT(MULH, A, B, D); break;
        case CASE(11, 2): PUT_REGISTER(D, high_unsigned(r[A], r[B])); COUNT(MULHU, A, B, D); break;
        case CASE(11, 4):
            if (r[B] == 0) { stop = 3; goto stopped; }
            PUT_REGISTER(D, divide_signed(r[A], r[B])); COUNT(DIV, A, B, D); break;
        case CASE(11, 5):
            if (r[B] == 0) { stop = 3; goto stopped; }
            PUT_REGISTER(D, r[A] / r[B]); COUNT(DIVU, A, B, D); break;
        case CASE(12, 0): PUT_ENABLED(1); COUNT(EI, NONE, NONE, NONE); break;
        case CASE(12, 1): PUT_ENABLED(0); COUNT(DI, NONE, NONE, NONE); break;
        case CASE(12, 2): PUT_ENABLED(1); next = state.return_address; COUNT(RETI, NONE, NONE, NONE); break;
        case CASE(12, 3): PUT_REGISTER(D, state.line); COUNT(GETIID, NONE, NONE, D); break;
        default: stop = 1; goto stopped;
        }
        pc = next;
        steps++;
    }
stopped:
    memcpy(state.r, r, sizeof r);
    state.pc = pc;
    state.n += steps;
    state.journaled = JOURNALING ? state.journaled + steps : 0;
    return (SisaRun){
        .state = state, .stop = stop, .steps = steps, .entries = entries, .ticks = ticks_of(steps, &usage), .usage = usage,
    };
}

SisaRun flat_run(SisaState state,
                 const uint8_t *program, size_t program_len,
                 uint8_t *memory, size_t memory_len,
                 uint16_t *inputs, size_t inputs_len,
                 uint16_t *outputs, size_t outputs_len,
                 uint32_t budget,
                 uint64_t *log, size_t log_len JOURNAL_PARAMETERS)
{
    uint8_t refusal = refusal_of(&state, program_len, memory_len, inputs_len, outputs_len, budget);
    if (refusal != 0)
        return (SisaRun){ .state = state, .refusal = refusal };
    return run_accepted(state, program, memory, inputs, outputs, budget, log, log_len, JOURNAL);
}
