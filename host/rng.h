/* A small generator of repeatable random numbers (splitmix64). */
#ifndef RNG_H
#define RNG_H

#include <stddef.h>
#include <stdint.h>

struct rng {
    uint64_t state; /* the seed before the first draw */
};

uint64_t rng_bits(struct rng *rng);

/* 0 to bound - 1; bound is 1 or more. */
uint32_t rng_below(struct rng *rng, uint32_t bound);

/* The entries of an array, as such a bound. */
#define COUNT(array) ((uint32_t)(sizeof(array) / sizeof(array)[0]))

/* low to high, both included; low if high is below it. */
uint32_t rng_between(struct rng *rng, uint32_t low, uint32_t high);

/* 1 once in so many draws. */
int rng_one_in(struct rng *rng, uint32_t draws);

/* A number of exactly so many binary digits, 0 to 64. */
uint64_t rng_of_length(struct rng *rng, uint32_t bits);

void rng_fill(struct rng *rng, uint8_t *bytes, size_t length);

#endif
