#ifndef PLAIN_H
#define PLAIN_H

#include "sisa.h"

enum { MEMORY_BYTES = 65536, PORTS = 256 };

/* The run of sisa_run_by_rules (sisa.h) on the board with two memories, by C interpreters. The usage and the ticks of uncounted_run
   are all 0. */
typedef SisaRun Run(SisaState state,
                    const uint8_t *program, size_t program_len,
                    uint8_t *memory, size_t memory_len,
                    uint16_t *inputs, size_t inputs_len,
                    uint16_t *outputs, size_t outputs_len,
                    uint32_t budget,
                    uint64_t *log, size_t log_len);

Run plain_run, flat_run, uncounted_run;

/* The run of sisa_run_by_rules_with_journal. A C interpreter's entries are its own. */
typedef SisaRun JournaledRun(SisaState state,
                             const uint8_t *program, size_t program_len,
                             uint8_t *memory, size_t memory_len,
                             uint16_t *inputs, size_t inputs_len,
                             uint16_t *outputs, size_t outputs_len,
                             uint32_t budget,
                             uint64_t *log, size_t log_len,
                             uint64_t *journal, size_t journal_len);

JournaledRun plain_run_with_journal, flat_run_with_journal;

/* The step back of sisa_step_back, by a journal that a C interpreter kept. */
typedef SisaBack StepBack(SisaState state,
                          const uint8_t *program, size_t program_len,
                          uint8_t *memory, size_t memory_len,
                          uint16_t *inputs, size_t inputs_len,
                          uint16_t *outputs, size_t outputs_len,
                          const uint64_t *journal, size_t journal_len,
                          uint64_t k);

StepBack plain_step_back;

/* The save of sisa_save on the board with two memories, by plain C: one scans both memories from the end byte by byte; the other,
   for memories without trailing zeros, copies both whole. */
typedef SisaSaved Save(SisaState state,
                       const uint8_t *program, size_t program_len,
                       const uint8_t *memory, size_t memory_len,
                       uint8_t *destination, size_t destination_len);

Save plain_save, copied_save;

#endif
