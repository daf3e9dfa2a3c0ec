/* chance.c: numbers by chance (splitmix64). */
#include "chance.h"

static uint64_t state;

void chance_set(uint64_t seed, uint64_t family, uint64_t number)
{
    state = seed;
    state = any() ^ family;
    state = any() ^ number;
    (void)any();
}

uint64_t any(void)
{
    uint64_t mixed = state += UINT64_C(0x9E3779B97F4A7C15);
    mixed = (mixed ^ (mixed >> 30)) * UINT64_C(0xBF58476D1CE4E5B9);
    mixed = (mixed ^ (mixed >> 27)) * UINT64_C(0x94D049BB133111EB);
    return mixed ^ (mixed >> 31);
}

uint32_t below(uint32_t bound)
{
    return (uint32_t)((any() >> 32) * bound >> 32);
}

uint32_t from(uint32_t low, uint32_t high)
{
    return low + below(high - low + 1);
}

bool chance(uint32_t percent)
{
    return below(100) < percent;
}

uint32_t one_of(const uint32_t *list, size_t length)
{
    return list[below((uint32_t)length)];
}

size_t by_weight(const uint32_t *weights, size_t length)
{
    uint32_t sum = 0;
    size_t place = 0;
    for (size_t i = 0; i < length; i++) {
        sum += weights[i];
    }
    uint32_t left = below(sum);
    while (left >= weights[place]) {
        left -= weights[place++];
    }
    return place;
}
