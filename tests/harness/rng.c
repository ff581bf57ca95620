#include "rng.h"

#include <string.h>

uint64_t rng_next(struct rng *rng)
{
    rng->state += 0x9E3779B97F4A7C15u;
    uint64_t z = rng->state;
    z = (z ^ z >> 30) * 0xBF58476D1CE4E5B9u;
    z = (z ^ z >> 27) * 0x94D049BB133111EBu;
    return z ^ z >> 31;
}

uint64_t rng_below(struct rng *rng, uint64_t bound)
{
    return rng_next(rng) % bound;
}

void rng_fill(struct rng *rng, uint8_t *bytes, size_t len)
{
    while (len > 0) {
        uint64_t word = rng_next(rng);
        size_t part = len < sizeof word ? len : sizeof word;
        memcpy(bytes, &word, part);
        bytes += part;
        len -= part;
    }
}
