#include "workloads.h"

#include <string.h>

/* The sheet's formats and the instructions used here, operands in the sheet's order. */
#define R3(opcode, f, d, a, b) (uint16_t)((opcode) << 12 | (a) << 9 | (b) << 6 | (d) << 3 | (f))
#define R2(opcode, x, a, n) (uint16_t)((opcode) << 12 | (a) << 9 | (x) << 6 | ((n) & 63))
#define R1(opcode, e, x, n) (uint16_t)((opcode) << 12 | (x) << 9 | (e) << 8 | ((n) & 255))
#define AND(d, a, b) R3(0, 0, d, a, b)
#define OR(d, a, b) R3(0, 1, d, a, b)
#define XOR(d, a, b) R3(0, 2, d, a, b)
#define ADD(d, a, b) R3(0, 4, d, a, b)
#define SUB(d, a, b) R3(0, 5, d, a, b)
#define SHA(d, a, b) R3(0, 6, d, a, b)
#define SHL(d, a, b) R3(0, 7, d, a, b)
#define CMPLT(d, a, b) R3(1, 0, d, a, b)
#define CMPEQ(d, a, b) R3(1, 3, d, a, b)
#define CMPLEU(d, a, b) R3(1, 5, d, a, b)
#define ADDI(d, a, n) R2(2, d, a, n)
#define LD(d, n, a) R2(3, d, a, n)
#define ST(n, a, b) R2(4, b, a, n)
#define LDB(d, n, a) R2(5, d, a, n)
#define STB(n, a, b) R2(6, b, a, n)
#define JALR(d, a) R2(7, d, a, 0)
#define BZ(a, n) R1(8, 0, a, n)
#define BNZ(a, n) R1(8, 1, a, n)
#define MOVI(d, n) R1(9, 0, d, n)
#define IN(d, n) R1(10, 0, d, n)
#define OUT(n, a) R1(10, 1, a, n)
#define MUL(d, a, b) R3(11, 0, d, a, b)
#define MULH(d, a, b) R3(11, 1, d, a, b)
#define MULHU(d, a, b) R3(11, 2, d, a, b)
#define DIV(d, a, b) R3(11, 4, d, a, b)
#define DIVU(d, a, b) R3(11, 5, d, a, b)
#define EI R3(12, 0, 0, 0, 0)
#define DI R3(12, 1, 0, 0, 0)
#define RETI R3(12, 2, 0, 0, 0)
#define GETIID(d) R3(12, 3, d, 0, 0)

/* Marsaglia's xorshift; the state is never 0. */
static uint32_t next_random(uint32_t *x)
{
    *x ^= *x << 13;
    *x ^= *x >> 17;
    *x ^= *x << 5;
    return *x;
}

static void put_word(uint8_t *program, size_t place, uint16_t w)
{
    program[2 * place] = (uint8_t)w;
    program[2 * place + 1] = (uint8_t)(w >> 8);
}

/* A program of these words, zeros after them, random data bytes and inputs, a reset state. */
static void make(Workload *load, const char *name, const uint16_t *words, size_t count, uint32_t seed)
{
    load->name = name;
    load->start = (SisaState){ .pc = 0 };
    memset(load->program, 0, MEMORY_BYTES);
    for (size_t i = 0; i < count; i++)
        put_word(load->program, i, words[i]);
    for (size_t i = 0; i < MEMORY_BYTES; i++)
        load->memory[i] = (uint8_t)(next_random(&seed) >> 24);
    for (size_t i = 0; i < PORTS; i++)
        load->inputs[i] = (uint16_t)(next_random(&seed) >> 16);
}

void alu_loop(Workload *load)
{
    static const uint16_t words[] = {
        MOVI(1, 77),
        ADD(0, 0, 1), XOR(2, 2, 0), SUB(3, 3, 2), AND(4, 3, 0), OR(5, 4, 2), ADDI(6, 6, -1), BNZ(1, -7),
    };
    make(load, "ALU loop", words, sizeof words / sizeof *words, 1);
}

/* The address grows by this each time. */
static void make_loads(Workload *load, const char *name, int stride)
{
    const uint16_t words[] = {
        MOVI(1, 1),
        LD(2, 0, 0), LDB(3, 5, 0), ADD(4, 2, 3), ST(8, 0, 4), STB(-3, 0, 2), LD(5, 20, 0), ST(-10, 0, 5), ADDI(0, 0, stride),
        BNZ(1, -9),
    };
    make(load, name, words, sizeof words / sizeof *words, 2);
}

void loads_and_stores(Workload *load)
{
    make_loads(load, "loads and stores", 22);
}

void loads_beside_range(Workload *load)
{
    make_loads(load, "range locked", 0);
    load->start.locked = 1;
    load->start.first_locked = 0x8000;
    load->start.last_locked = 0xBFFF;
}

void mix(Workload *load)
{
    static const uint16_t words[] = {
        /*  0 */ MOVI(6, 2 * 17),
        /*  1 */ IN(1, 16), ADD(0, 0, 1), SHA(2, 0, 5), ADDI(5, 5, 3), SHL(3, 2, 5), CMPLT(4, 3, 1),
        /*  7 */ BZ(4, 1), XOR(0, 0, 3),
        /*  9 */ JALR(7, 6), CMPLEU(4, 0, 2),
        /* 11 */ BNZ(4, 1), ADDI(0, 0, 5),
        /* 13 */ OUT(32, 0), CMPEQ(4, 2, 5), OR(3, 3, 4),
        /* 16 */ BNZ(6, -16),
        /* 17, the subroutine */ IN(2, 200), SUB(0, 0, 2), SHL(4, 0, 3), XOR(2, 2, 4), JALR(4, 7),
    };
    make(load, "mix", words, sizeof words / sizeof *words, 3);
}

void mix_with_products(Workload *load)
{
    static const uint16_t words[] = {
        /*  0 */ MOVI(6, 2 * 20),
        /*  1 */ IN(1, 16), ADD(0, 0, 1), SHA(2, 0, 5), ADDI(5, 5, 3), MUL(3, 2, 5), CMPLT(4, 3, 1),
        /*  7 */ BZ(4, 1), XOR(0, 0, 3),
        /*  9 */ JALR(7, 6), CMPLEU(4, 0, 3),
        /* 11 */ BNZ(4, 1), ADDI(0, 0, 5),
        /* 13 */ OUT(32, 0), CMPEQ(4, 2, 5), MULH(3, 2, 1), OR(3, 3, 6), DIV(3, 0, 3), ADD(0, 0, 3),
        /* 19 */ BNZ(6, -19),
        /* 20, the subroutine */ IN(2, 200), SUB(0, 0, 2), MULHU(4, 0, 2), DIVU(2, 0, 6), XOR(2, 2, 4), JALR(4, 7),
    };
    make(load, "mix with products", words, sizeof words / sizeof *words, 3);
}

/* The sheet's kinds, by their number in its order. */
enum { CMPLT_KIND = 8, ADDI_KIND = 13, JALR_KIND = 18, BZ_KIND = 19, BNZ_KIND = 20, KINDS = 25 };

static unsigned random_kind(uint32_t *x)
{
    for (;;) {
        unsigned kind = (next_random(x) >> 8) % KINDS;
        if (kind != JALR_KIND || (next_random(x) >> 8) % 64 == 0)
            return kind;
    }
}

/* A word of the kind with these fields, but N8 of a branch is 0 to 127. */
static uint16_t word_of(unsigned kind, uint16_t fields)
{
    static const uint8_t f_of_compare[] = { 0, 1, 3, 4, 5 };
    if (kind < CMPLT_KIND)
        return (uint16_t)((fields & 0xFF8) | kind);
    if (kind < ADDI_KIND)
        return (uint16_t)(0x1000 | (fields & 0xFF8) | f_of_compare[kind - CMPLT_KIND]);
    if (kind < BZ_KIND)
        return (uint16_t)((2 + kind - ADDI_KIND) << 12 | (fields & 0xFFF));
    if (kind <= BNZ_KIND)
        fields &= 0xF7F;
    kind -= BZ_KIND;
    return (uint16_t)((8 + kind / 2) << 12 | (kind % 2) << 8 | (fields & 0xEFF));
}

void random_program(Workload *load, uint32_t seed)
{
    make(load, "random program", NULL, 0, seed);
    for (size_t i = 0; i < MEMORY_BYTES / 2; i++) {
        unsigned kind = random_kind(&seed);
        put_word(load->program, i, word_of(kind, (uint16_t)(next_random(&seed) >> 16)));
    }
}

void lines(Workload *load)
{
    static const uint16_t words[] = {
        MOVI(3, 1),
        EI, ADDI(4, 4, 1), DI, ADDI(4, 4, 2), BNZ(3, -5),
        /* 0x0100 */ [128] = GETIID(1), ADD(2, 2, 1), RETI,
    };
    make(load, "lines", words, sizeof words / sizeof *words, 4);
    load->start.pending = (1 << LINES) - 1;
}
