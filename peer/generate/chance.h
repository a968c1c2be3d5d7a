/*
 * Chance: every choice of the generator is made here, from one number that the
 * seed sets. So the same seed makes the same file.
 */
#ifndef GENERATE_CHANCE_H
#define GENERATE_CHANCE_H

#include "../plain.h"

void seed_chance(uint64_t seed);

uint32_t any32(void);

/* A number from 0 up to and without the limit. */
uint32_t below(uint32_t limit);

/* A number from the least to the most, both included. */
uint32_t between(uint32_t least, uint32_t most);

/* True so often in a hundred. */
bool percent(uint32_t share);

/* One of the numbers listed: PICK(1, 2, 2) is 2 twice as often as 1. */
#define PICK(...)                                                              \
    pick((const uint32_t[]){__VA_ARGS__},                                      \
         sizeof((const uint32_t[]){__VA_ARGS__}) / sizeof(uint32_t))

uint32_t pick(const uint32_t *numbers, size_t count);

/* The nearest value that is wrong, half of the time, or another one. */
uint32_t nearest_or(uint32_t nearest, uint32_t other);

/* No chance: it keeps a chance number within a limit. */
uint32_t least_of(uint32_t one, uint32_t other);

#endif
