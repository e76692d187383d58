/*
 * Numbers that are lent to a call, and what they are afterwards.
 */
#ifndef NUMBERS_H
#define NUMBERS_H

#include "common.h"

static const uint64_t BEFORE = 0x5a5a5a5a5a5a5a5a;

/* Numbers to lend, none of them 0, in a buffer of exactly their length. */
static inline uint64_t *lend(size_t count)
{
    uint64_t *numbers = (uint64_t *)(void *)zeros(count * sizeof *numbers);
    for (size_t i = 0; i < count; i++) {
        numbers[i] = BEFORE;
    }
    return numbers;
}

/* The numbers of an answer are these, and those behind them are as they were. Frees them. */
static inline void expect_numbers(const char *what, uint64_t *numbers, size_t count, const uint64_t *wanted,
                                  size_t answer)
{
    size_t good = 0;
    while (good < count && numbers[good] == (good < answer ? wanted[good] : BEFORE)) {
        good++;
    }
    expect(what, good, count);
    free(numbers);
}

/* Every number is the same one: 0 after most refusals. Frees them. */
static inline void expect_all(const char *what, uint64_t *numbers, size_t count, uint64_t wanted)
{
    size_t good = 0;
    while (good < count && numbers[good] == wanted) {
        good++;
    }
    expect(what, good, count);
    free(numbers);
}

#endif
