/*
 * The random data of a test program: one generator, seeded once.
 */
#ifndef HARNESS_RANDOM_H
#define HARNESS_RANDOM_H

#include <stddef.h>
#include <stdint.h>

void random_seed(uint64_t seed);

uint64_t random_word(void);

/* A number under bound; bound is not 0. */
uint64_t random_below(uint64_t bound);

/* A number of at most so many bits, 0 to 64, each length in bits as likely as another: so
   that both small and large ones are seen. */
uint64_t random_bits(unsigned most);

/* A number that a call might take for the right one: the right one with another bit, one
   more or less, or with other bits above the lower 32. */
uint64_t random_near(uint64_t right);

void random_fill(uint8_t *bytes, size_t len);

/* Mostly random bytes, else bytes that are all alike, or a single bit. */
void random_pattern(uint8_t *bytes, size_t len);

#endif
