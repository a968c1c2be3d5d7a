/*
 * Chance: numbers by a rule of our own, since those of a C library differ from
 * one library to the next, and the files would with them.
 */
#include "chance.h"

static uint64_t chance_state;

void seed_chance(uint64_t seed)
{
    chance_state = seed;
}

uint32_t any32(void)
{
    uint64_t mixed = chance_state += 0x9E3779B97F4A7C15;
    mixed = (mixed ^ mixed >> 30) * 0xBF58476D1CE4E5B9;
    mixed = (mixed ^ mixed >> 27) * 0x94D049BB133111EB;
    return (uint32_t)((mixed ^ mixed >> 31) >> 32);
}

uint32_t below(uint32_t limit)
{
    return (uint32_t)((uint64_t)any32() * limit >> 32);
}

uint32_t between(uint32_t least, uint32_t most)
{
    return least + below(most - least + 1);
}

bool percent(uint32_t share)
{
    return below(100) < share;
}

uint32_t pick(const uint32_t *numbers, size_t count)
{
    return numbers[below((uint32_t)count)];
}

uint32_t nearest_or(uint32_t nearest, uint32_t other)
{
    return percent(50) ? nearest : other;
}

uint32_t least_of(uint32_t one, uint32_t other)
{
    return one < other ? one : other;
}
