#include <stdint.h>
#include <stdio.h>
#include <stdlib.h>
#include <string.h>

#include "../tests/harness/rng.h"
#include "../tests/reference/digest.h"
#include "../tests/reference/digests.h"
#include "bench.h"
#include "edonr.h"

enum { MESSAGES = 1000, MESSAGE_BYTES = 16 };

/* All messages in one call, or a call for each: by the archive, then by the reference. */
enum { ALL, REFERENCE_ALL, EACH, REFERENCE_EACH, WAYS };

typedef uint64_t digest_call(uint32_t size, const uint8_t *message, size_t message_len,
                             uint8_t *out, size_t out_len);
typedef uint64_t digests_call(uint32_t size, const uint8_t *messages, size_t messages_len,
                              const uint32_t *lengths, size_t lengths_len, uint8_t *out,
                              size_t out_len);

/* The call that is not made is null. */
struct way {
    digests_call *all;
    digest_call *each;
    uint32_t size;
};

static uint8_t messages[MESSAGES * MESSAGE_BYTES];
static uint32_t lengths[MESSAGES];
static uint8_t out[MESSAGES * 64];

static uint64_t run_each(const struct way *way)
{
    size_t digest_len = way->size / 8;
    uint64_t sum = 0;
    for (size_t k = 0; k < MESSAGES; k++)
        sum += way->each(way->size, messages + k * MESSAGE_BYTES, MESSAGE_BYTES,
                         out + k * digest_len, digest_len);
    return sum;
}

/* Gives the answer, or the sum of the answers. */
static uint64_t run_way(const struct way *way)
{
    if (way->all == NULL)
        return run_each(way);
    return way->all(way->size, messages, sizeof messages, lengths, MESSAGES, out,
                    MESSAGES * (way->size / 8));
}

static void run_again(void *context, unsigned long rounds)
{
    for (unsigned long i = 0; i < rounds; i++)
        run_way(context);
}

static void stop(const char *why)
{
    fprintf(stderr, "bench: %s\n", why);
    exit(1);
}

/* The times of ways that are refused or do not write the same would compare nothing. */
static void stop_unless_same(const struct way *ways)
{
    static uint8_t first[sizeof out];
    for (unsigned i = 0; i < WAYS; i++) {
        memset(out, 0, sizeof out);
        if (run_way(&ways[i]) != MESSAGES * (ways[i].size / 8))
            stop("a way does not answer the length of all digests");
        if (i == 0)
            memcpy(first, out, sizeof out);
        if (memcmp(first, out, sizeof out) != 0)
            stop("the ways write other digests");
    }
}

static void bench_messages(uint32_t size)
{
    static const double scale = 1e9 / MESSAGES;
    struct way ways[WAYS] = {[ALL] = {edonr_digests, NULL, size},
                             [REFERENCE_ALL] = {reference_digests, NULL, size},
                             [EACH] = {NULL, edonr_digest, size},
                             [REFERENCE_EACH] = {NULL, reference_digest, size}};
    struct work works[WAYS];
    stop_unless_same(ways);
    for (unsigned i = 0; i < WAYS; i++)
        works[i] = (struct work){run_again, &ways[i], 1, 0};
    bench_measure(works, WAYS);
    for (unsigned i = 0; i < WAYS; i += 2) {
        double archive = works[i].seconds, reference = works[i + 1].seconds;
        printf("  size %u  %-11s  archive %6.1f ns  reference %6.1f ns  "
               "to a call each of the archive %5.2f  of the reference %5.2f\n",
               (unsigned)size, i == ALL ? "one call" : "a call each", archive * scale,
               reference * scale, archive / works[EACH].seconds,
               archive / works[REFERENCE_EACH].seconds);
    }
}

void bench_digests(void)
{
    struct rng rng = {7};
    rng_fill(&rng, messages, sizeof messages);
    for (size_t k = 0; k < MESSAGES; k++)
        lengths[k] = MESSAGE_BYTES;
    printf("B. digests of 1,000 messages of 16 bytes, a message\n");
    bench_messages(256);
    bench_messages(512);
}
