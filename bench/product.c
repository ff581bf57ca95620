#include <stdint.h>
#include <stdio.h>

#include "../tests/harness/product_call.h"
#include "../tests/harness/rng.h"
#include "bench.h"

struct chain {
    operation_call *call;
    uint32_t width;
    uint8_t vectors[3][64];
};

/* Each result is an operand of the next two calls, on either side. */
static void run_chain(void *context, unsigned long rounds)
{
    struct chain *chain = context;
    uint32_t w = chain->width;
    uint8_t *first = chain->vectors[0], *second = chain->vectors[1];
    uint8_t *out = chain->vectors[2];
    for (unsigned long i = 0; i < rounds; i++) {
        chain->call(w, first, w, second, w, out, w);
        uint8_t *oldest = first;
        first = second;
        second = out;
        out = oldest;
    }
}

static struct work chain_work(struct chain *chain, operation_call *call, uint32_t width)
{
    struct rng rng = {7};
    chain->call = call;
    chain->width = width;
    rng_fill(&rng, chain->vectors[0], sizeof chain->vectors);
    return (struct work){run_chain, chain, 1, 0};
}

static void bench_width(uint32_t width)
{
    struct chain chains[2 * OPERATIONS];
    struct work works[2 * OPERATIONS];
    for (unsigned i = 0; i < OPERATIONS; i++) {
        works[2 * i] = chain_work(&chains[2 * i], operations[i].archive, width);
        works[2 * i + 1] = chain_work(&chains[2 * i + 1], operations[i].reference, width);
    }
    bench_measure(works, 2 * OPERATIONS);
    for (unsigned i = 0; i < OPERATIONS; i++) {
        double archive = works[2 * i].seconds, reference = works[2 * i + 1].seconds;
        printf("  width %u  %-14s  archive %7.2f ns  reference %7.2f ns  ratio %5.2f  "
               "to the archive's product %5.2f\n",
               (unsigned)width, operations[i].name, archive * 1e9, reference * 1e9,
               archive / reference, archive / works[0].seconds);
    }
}

void bench_product(void)
{
    printf("A. product and divisions on bytes, a call\n");
    bench_width(32);
    bench_width(64);
}
