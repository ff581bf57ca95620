/*
 * A small generator of test data (splitmix64): the same numbers from the same seed, on
 * every machine.
 */
#ifndef HARNESS_RNG_H
#define HARNESS_RNG_H

#include <stddef.h>
#include <stdint.h>

struct rng {
    uint64_t state;
};

uint64_t rng_next(struct rng *rng);

/* A number under bound; bound is not 0. */
uint64_t rng_below(struct rng *rng, uint64_t bound);

void rng_fill(struct rng *rng, uint8_t *bytes, size_t len);

#endif
