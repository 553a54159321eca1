/* Numbers that look random, the same from the same seed everywhere. */
#ifndef RANDOM_H
#define RANDOM_H

#include <stddef.h>
#include <stdint.h>

typedef struct Random {
    uint64_t state;
} Random;

uint64_t random_word(Random *random);

/* 0 to limit - 1; the limit is not 0. */
size_t random_below(Random *random, size_t limit);

/* One of these words. */
uint32_t random_pick(Random *random, const uint32_t *words, size_t count);

/* Now small, now any integer, now next to the ends of the integers. */
int64_t random_integer(Random *random);

#endif
