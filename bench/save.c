/* The saves that sisa_save is measured against. */
#include "plain.h"

#include <string.h>

enum { HEADER_BYTES = 16 };

/* How many bytes are left without the zeros at the end. */
static size_t kept(const uint8_t *bytes, size_t count)
{
    while (count > 0 && bytes[count - 1] == 0)
        count--;
    return count;
}

static void put_number(uint8_t *at, size_t x)
{
    for (int i = 0; i < 4; i++)
        at[i] = (uint8_t)(x >> 8 * i);
}

/* The locked bytes, from `start` up to `end`; both are 0 where there are none. */
typedef struct {
    size_t start, end;
} Range;

static Range range_of(const SisaState *state)
{
    int none = state->locked == 0 || state->first_locked > state->last_locked;
    return none ? (Range){ 0, 0 } : (Range){ state->first_locked, (size_t)state->last_locked + 1 };
}

/* How many bytes of data memory are left so, where its locked bytes count as zero. */
static size_t kept_of_data(const uint8_t *memory, Range range)
{
    size_t count = kept(memory, MEMORY_BYTES);
    return range.start < count && count <= range.end ? kept(memory, range.start) : count;
}

/* The file of the first bytes of both memories. */
static SisaSaved write_file(SisaState state, const uint8_t *program, size_t program_bytes, const uint8_t *memory,
                            size_t memory_bytes, uint8_t *destination, size_t destination_len)
{
    Range range = range_of(&state);
    size_t data_offset = HEADER_BYTES + program_bytes, length = data_offset + memory_bytes;
    if (destination_len < length)
        return (SisaSaved){ .state = state, .refusal = 9 };
    put_number(destination, program_bytes / 2);
    put_number(destination + 4, HEADER_BYTES);
    put_number(destination + 8, memory_bytes);
    put_number(destination + 12, data_offset);
    memcpy(destination + HEADER_BYTES, program, program_bytes);
    memcpy(destination + data_offset, memory, memory_bytes);
    if (range.start < memory_bytes) /* then the range ends there too */
        memset(destination + data_offset + range.start, 0, range.end - range.start);
    return (SisaSaved){ .state = state, .length = length };
}

SisaSaved plain_save(SisaState state,
                     const uint8_t *program, size_t program_len,
                     const uint8_t *memory, size_t memory_len,
                     uint8_t *destination, size_t destination_len)
{
    if (program_len != MEMORY_BYTES || memory_len != MEMORY_BYTES)
        return (SisaSaved){ .state = state, .refusal = 1 };
    size_t words = (kept(program, program_len) + 1) / 2;
    return write_file(state, program, 2 * words, memory, kept_of_data(memory, range_of(&state)), destination, destination_len);
}

SisaSaved copied_save(SisaState state,
                      const uint8_t *program, size_t program_len,
                      const uint8_t *memory, size_t memory_len,
                      uint8_t *destination, size_t destination_len)
{
    return write_file(state, program, program_len, memory, memory_len, destination, destination_len);
}
