#include "rng.h"

uint64_t rng_bits(struct rng *rng)
{
    uint64_t z = rng->state += UINT64_C(0x9E3779B97F4A7C15);
    z = (z ^ (z >> 30)) * UINT64_C(0xBF58476D1CE4E5B9);
    z = (z ^ (z >> 27)) * UINT64_C(0x94D049BB133111EB);
    return z ^ (z >> 31);
}

uint32_t rng_below(struct rng *rng, uint32_t bound)
{
    return (uint32_t)((rng_bits(rng) >> 32) * bound >> 32);
}

uint32_t rng_between(struct rng *rng, uint32_t low, uint32_t high)
{
    if (high <= low)
        return low;
    return low + (uint32_t)((rng_bits(rng) >> 32) * ((uint64_t)high - low + 1) >> 32);
}

int rng_one_in(struct rng *rng, uint32_t draws)
{
    return rng_below(rng, draws) == 0;
}

uint64_t rng_of_length(struct rng *rng, uint32_t bits)
{
    if (bits == 0)
        return 0;
    return (rng_bits(rng) | UINT64_C(1) << 63) >> (64 - bits);
}

void rng_fill(struct rng *rng, uint8_t *bytes, size_t length)
{
    uint64_t bits = 0;
    for (size_t at = 0; at < length; at++) {
        bits = at % 8 == 0 ? rng_bits(rng) : bits >> 8;
        bytes[at] = (uint8_t)bits;
    }
}
