/*
 * Timing of pieces of work that are to be compared with one another.
 */
#ifndef BENCH_H
#define BENCH_H

#include <stddef.h>

struct work {
    void (*run)(void *context, unsigned long rounds);
    void *context;
    unsigned long rounds;
    double seconds; /* a round, the best of all repeats */
};

/* Times each piece many times in turn, so that what else the machine does meets them all
   alike, and keeps the best time of each. */
void bench_measure(struct work *works, size_t count);

/* The stages, by parts of the header; each prints its own table. */
void bench_product(void);
void bench_digest(void);
void bench_digests(void);
void bench_sheets(void);
void bench_slices(void);
void bench_inverse_sheets(void);
void bench_blocks(void);
void bench_shuffle(void);
void bench_replay(void);

#endif
