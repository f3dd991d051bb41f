/* What the tests of include/mmu.h share: the runs, calls on them, random numbers, and what was found wrong. Each test is one C file. */

#ifndef TRIAL_H
#define TRIAL_H

#include <inttypes.h>
#include <stdio.h>
#include <string.h>

#include "mmu.h"

/* The right lengths of the runs. Each run has room for a length that is too long. */
enum { R = MMU_REGISTER_BYTES, B = MMU_BUFFER_BYTES, T = MMU_TABLE_BYTES_MAX };
enum { OFFSET_BITS = 13, NUMBER_BYTES = 8, NUMBER_BITS = 64, MOST_SHOWN = 20 };

static uint8_t registers[R + 1];
static uint8_t buffer[B + 1];
static uint8_t tables[T + MMU_TABLE_BYTES_STEP];
static unsigned wrong;

static inline void expect(const char *what, uint64_t is, uint64_t should_be)
{
    if (is == should_be)
        return;
    if (wrong++ < MOST_SHOWN)
        printf("%s is %" PRIX64 " and should be %" PRIX64 " (hex)\n", what, is, should_be);
}

/* What main returns. */
static inline int verdict(void)
{
    if (wrong != 0)
        printf("%u wrong\n", wrong);
    return wrong != 0;
}

/* So many random bits, the same in every run. */
static inline uint64_t random_bits(unsigned count)
{
    static uint64_t state = 1;

    state ^= state << 13;
    state ^= state >> 7;
    state ^= state << 17;
    return state >> (NUMBER_BITS - count);
}

static inline void start(void)
{
    expect("the answer of a start", mmu_start(registers, R, buffer, B), 0);
}

static inline void set(uint32_t number, uint32_t value)
{
    expect("the refusal of a setting", mmu_guarded_setting(registers, R, number, value), 0);
}

static inline uint64_t store(uint32_t index, uint32_t value)
{
    return mmu_table_store(registers, R, buffer, B, tables, T, index, value);
}

static inline void put_table_word(uint32_t index, uint32_t word)
{
    bool inside = index < T / 4;

    expect("whether an index is inside the tables", inside, true);
    if (inside)
        mmu_put_word(tables + 4 * index, word);
}

#endif
