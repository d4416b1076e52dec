/* The step back that sisa_step_back is measured against. */
#include "interpreter.h"

#include <string.h>

static SisaBack back_accepted(SisaState state, uint8_t *restrict memory, uint16_t *restrict inputs,
                              uint16_t *restrict outputs, const uint64_t *restrict journal, uint64_t k)
{
    uint16_t r[8];
    uint64_t at = state.journaled, fallen = 0;
    memcpy(r, state.r, sizeof r);
    state.journaled -= k;
    state.n -= (uint32_t)k;
    while (at > state.journaled) {
        uint64_t entry = journal[--at];
        uint16_t held = (uint16_t)(entry >> 16), where = (uint16_t)(entry >> 32);
        state.pc = (uint16_t)entry;
        switch (entry >> 48 & 255) {
        case REGISTER: r[where & 7] = held; break;
        case WORD: store_word(memory, where, held); break;
        case BYTE: memory[where] = (uint8_t)held; break;
        case OUTPUT: outputs[where & 255] = held; fallen++; break;
        case KEY: r[entry >> 56 & 7] = held; inputs[0] = where; break;
        case ENABLED: state.enabled = (uint8_t)held; break;
        case TAKEN:
            state.pending |= (uint8_t)(1 << (entry >> 56 & 7));
            state.return_address = held; state.enabled = (uint8_t)where; state.line = (uint8_t)(where >> 8); break;
        default: break;
        }
    }
    memcpy(state.r, r, sizeof r);
    return (SisaBack){ .state = state, .entries = fallen };
}

SisaBack plain_step_back(SisaState state,
                         const uint8_t *program, size_t program_len,
                         uint8_t *memory, size_t memory_len,
                         uint16_t *inputs, size_t inputs_len,
                         uint16_t *outputs, size_t outputs_len,
                         const uint64_t *journal, size_t journal_len,
                         uint64_t k)
{
    uint8_t refusal = refusal_of_lent(&state, program_len, memory_len, inputs_len, outputs_len);
    uint64_t held = state.journaled < state.n ? state.journaled : state.n;
    (void)program;
    if (refusal == 0 && (journal_len < state.journaled ? 0 : held) < k)
        refusal = 14;
    if (refusal != 0)
        return (SisaBack){ .state = state, .refusal = refusal };
    return back_accepted(state, memory, inputs, outputs, journal, k);
}
