#include <stdint.h>
#include <stdio.h>
#include <string.h>

#include "../tests/harness/rng.h"
#include "../tests/reference/digest.h"
#include "bench.h"
#include "edonr.h"

typedef uint64_t digest_call(uint32_t size, const uint8_t *message, size_t message_len,
                             uint8_t *out, size_t out_len);

/* edonr_digest of an earlier archive if `make bench BEFORE=..` has put one in, else null. */
extern digest_call before_edonr_digest __attribute__((weak));

struct chain {
    digest_call *call;
    uint32_t size;
    uint8_t *message;
    size_t message_len;
};

/* Each digest becomes the front of the next message. */
static void run_chain(void *context, unsigned long rounds)
{
    struct chain *chain = context;
    uint8_t out[64];
    for (unsigned long i = 0; i < rounds; i++) {
        chain->call(chain->size, chain->message, chain->message_len, out, chain->size / 8);
        memcpy(chain->message, out, chain->size / 8);
    }
}

static void bench_message(uint32_t size, size_t message_len)
{
    static uint8_t message[1 << 20];
    struct rng rng = {7};
    rng_fill(&rng, message, message_len);
    struct chain chains[3] = {{edonr_digest, size, message, message_len},
                              {reference_digest, size, message, message_len},
                              {before_edonr_digest, size, message, message_len}};
    struct work works[3];
    size_t count = before_edonr_digest == NULL ? 2 : 3;
    for (size_t i = 0; i < count; i++)
        works[i] = (struct work){run_chain, &chains[i], 1, 0};
    bench_measure(works, count);
    double scale = (double)message_len * 1e-6;
    printf("  size %u  %7zu bytes  archive %7.1f MB/s  reference %7.1f MB/s  time ratio "
           "%5.2f",
           (unsigned)size, message_len, scale / works[0].seconds, scale / works[1].seconds,
           works[0].seconds / works[1].seconds);
    if (count == 3)
        printf("  before %7.1f MB/s  time ratio to before %5.2f", scale / works[2].seconds,
               works[0].seconds / works[2].seconds);
    printf("\n");
}

void bench_digest(void)
{
    printf("B. digest in one call\n");
    bench_message(256, 1 << 20);
    bench_message(512, 1 << 20);
    bench_message(256, 64);
    bench_message(512, 64);
}
