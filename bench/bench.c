/*
 * bench [stage ...]: archive against reference, as ratios measured in one run. Stages are
 * A (product and divisions), B (digest), C (sheets), E (blocks) and F (records), as the
 * header's parts; without one, all are run. A ratio under 1 means that the archive is the
 * faster one. Where an earlier archive is linked in (make bench BEFORE=..), the digests of
 * one message have a ratio to that one too.
 *
 * The reference divides with whole inverted squares, so that its divisions are slow by
 * design: the measure for a division is its ratio to the archive's own product, and that
 * for a step back its ratio to the archive's own step forward.
 */
#define _POSIX_C_SOURCE 199309L

#include "bench.h"

#include <stdio.h>
#include <string.h>
#include <time.h>

#include "../tests/reference/division.h"

enum { REPEATS = 25 };

static const double least_seconds = 0.002;

static const struct {
    char letter;
    void (*run)(void);
} stages[] = {
    {'A', bench_product},
    {'B', bench_digest},
    {'B', bench_digests},
    {'C', bench_sheets},
    {'C', bench_slices},
    {'C', bench_inverse_sheets},
    {'E', bench_blocks},
    {'F', bench_shuffle},
    {'F', bench_replay},
};

static double run_once(const struct work *work)
{
    struct timespec start, end;
    clock_gettime(CLOCK_MONOTONIC, &start);
    work->run(work->context, work->rounds);
    clock_gettime(CLOCK_MONOTONIC, &end);
    return (double)(end.tv_sec - start.tv_sec) +
           1e-9 * (double)(end.tv_nsec - start.tv_nsec);
}

/* Rounds enough that the clock's own time does not matter. */
static void choose_rounds(struct work *work)
{
    work->rounds = 1;
    while (run_once(work) < least_seconds)
        work->rounds *= 2;
}

void bench_measure(struct work *works, size_t count)
{
    for (size_t i = 0; i < count; i++) {
        choose_rounds(&works[i]);
        works[i].seconds = run_once(&works[i]) / (double)works[i].rounds;
    }
    for (unsigned repeat = 0; repeat < REPEATS; repeat++) {
        for (size_t i = 0; i < count; i++) {
            double seconds = run_once(&works[i]) / (double)works[i].rounds;
            if (seconds < works[i].seconds)
                works[i].seconds = seconds;
        }
    }
}

static int is_wanted(char letter, int argc, char **argv)
{
    for (int i = 1; i < argc; i++)
        if (strchr(argv[i], letter) != NULL)
            return 1;
    return argc == 1;
}

int main(int argc, char **argv)
{
    reference_init();
    for (size_t i = 0; i < sizeof stages / sizeof stages[0]; i++)
        if (is_wanted(stages[i].letter, argc, argv))
            stages[i].run();
    return 0;
}
