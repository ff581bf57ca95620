#include <stdint.h>
#include <stdio.h>

#include "../tests/harness/rng.h"
#include "../tests/harness/step_call.h"
#include "bench.h"

struct chain {
    step_function *step;
    uint32_t width;
    uint8_t pipe[PIPE_64], block[PIPE_64];
};

/* Each step starts from the pipe that the one before left; the block stays. */
static void run_chain(void *context, unsigned long rounds)
{
    struct chain *chain = context;
    size_t len = 2 * (size_t)chain->width;
    for (unsigned long i = 0; i < rounds; i++)
        chain->step(chain->width, chain->pipe, len, chain->block, len);
}

static struct work chain_work(struct chain *chain, step_function *step, uint32_t width)
{
    struct rng rng = {7};
    chain->step = step;
    chain->width = width;
    rng_fill(&rng, chain->pipe, sizeof chain->pipe);
    rng_fill(&rng, chain->block, sizeof chain->block);
    return (struct work){run_chain, chain, 1, 0};
}

static void bench_width(uint32_t width)
{
    struct chain chains[2 * DIRECTIONS];
    struct work works[2 * DIRECTIONS];
    for (enum direction d = FORWARD; d < DIRECTIONS; d++) {
        works[2 * d] = chain_work(&chains[2 * d], archive_steps[d], width);
        works[2 * d + 1] = chain_work(&chains[2 * d + 1], reference_steps[d], width);
    }
    bench_measure(works, 2 * DIRECTIONS);
    for (enum direction d = FORWARD; d < DIRECTIONS; d++) {
        double archive = works[2 * d].seconds, reference = works[2 * d + 1].seconds;
        printf("  width %u  %-8s  archive %7.2f ns  reference %7.2f ns  ratio %5.2f  "
               "to the archive's step forward %5.2f\n",
               (unsigned)width, direction_name(d), archive * 1e9, reference * 1e9,
               archive / reference, archive / works[2 * FORWARD].seconds);
    }
}

void bench_blocks(void)
{
    printf("E. steps of one block, a call\n");
    bench_width(32);
    bench_width(64);
}
