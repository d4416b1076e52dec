#ifndef WORKLOADS_H
#define WORKLOADS_H

#include "plain.h"

enum { STEPS_PER_OUT = 16 };

/* What a run starts from, beside outputs of 0. None of the programs ends by itself, and none does an OUT more often than
   once in STEPS_PER_OUT steps. The state is a reset one, but for the lines that are pending and the range
   that is locked. */
typedef struct {
    const char *name;
    SisaState start;
    uint8_t program[MEMORY_BYTES];
    uint8_t memory[MEMORY_BYTES];
    uint16_t inputs[PORTS];
} Workload;

/* Adds, subtracts and bitwise operations on registers, closed by a branch that is always taken. */
void alu_loop(Workload *load);

/* LD, ST, LDB and STB at an address that walks through the whole memory. */
void loads_and_stores(Workload *load);

/* The same at one address, with a range locked that it does not touch. */
void loads_beside_range(Workload *load);

/* Shifts, compares, branches that depend on data, a subroutine by JALR, IN and OUT. */
void mix(Workload *load);

/* The mix with MUL, MULH and DIV in its loop, MULHU and DIVU in its subroutine. A divisor has the bits of R6, the
   subroutine's address, so none is 0. */
void mix_with_products(Workload *load);

/* 32,768 random assigned words, data bytes and inputs, all decided by the seed (not 0). The sheet's 25 kinds are alike in
   number but for JALR, which is 64 times rarer, and branches go forward: a program without these two limits soon stays in
   a short loop. There is no word of opcode 11: a random divisor is soon 0, which would end the run. */
void random_program(Workload *load, uint32_t seed);

/* EI, DI, GETIID and RETI, all eight lines pending at the start: the first LINE_STEPS steps take them all. */
enum { LINES = 8, LINE_STEPS = 100 };
void lines(Workload *load);

#endif
