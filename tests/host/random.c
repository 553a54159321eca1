#include "random.h"

uint64_t random_word(Random *random)
{
    uint64_t word;

    random->state += UINT64_C(0x9e3779b97f4a7c15);
    word = random->state;
    word = (word ^ (word >> 30)) * UINT64_C(0xbf58476d1ce4e5b9);
    word = (word ^ (word >> 27)) * UINT64_C(0x94d049bb133111eb);
    return word ^ (word >> 31);
}

size_t random_below(Random *random, size_t limit)
{
    return (size_t)(random_word(random) % limit);
}

uint32_t random_pick(Random *random, const uint32_t *words, size_t count)
{
    return words[random_below(random, count)];
}

int64_t random_integer(Random *random)
{
    uint64_t word = random_word(random);
    int64_t half = (int64_t)(word >> 1);

    switch (random_below(random, 5)) {
    case 0:
        return half;
    case 1:
        return -half - 1;
    case 2:
        return INT64_MAX - (int64_t)(word % 3);
    case 3:
        return INT64_MIN + (int64_t)(word % 3);
    default:
        return (int64_t)(word % 41) - 20;
    }
}
