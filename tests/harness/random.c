#include "random.h"

#include <string.h>

#include "rng.h"

static struct rng rng;

void random_seed(uint64_t seed)
{
    rng.state = seed;
}

uint64_t random_word(void)
{
    return rng_next(&rng);
}

uint64_t random_below(uint64_t bound)
{
    return rng_below(&rng, bound);
}

uint64_t random_bits(unsigned most)
{
    unsigned bits = (unsigned)random_below(most + 1);
    return bits == 0 ? 0 : random_word() >> (64 - bits);
}

uint64_t random_near(uint64_t right)
{
    switch (random_below(4)) {
    case 0: return right + 1;
    case 1: return right - 1;
    case 2: return right ^ (uint64_t)1 << random_below(64);
    default: return right + (random_bits(32) << 32);
    }
}

void random_fill(uint8_t *bytes, size_t len)
{
    rng_fill(&rng, bytes, len);
}

void random_pattern(uint8_t *bytes, size_t len)
{
    switch (random_below(4)) {
    case 0: memset(bytes, (int)random_below(256), len); break;
    case 1:
        memset(bytes, 0, len);
        if (len > 0) {
            uint64_t bit = random_below(8 * (uint64_t)len);
            bytes[bit / 8] = (uint8_t)(1u << bit % 8);
        }
        break;
    default: random_fill(bytes, len);
    }
}
