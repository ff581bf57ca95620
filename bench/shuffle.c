#include <stdint.h>
#include <stdio.h>
#include <stdlib.h>
#include <string.h>

#include "../tests/harness/rng.h"
#include "../tests/harness/sheet_maker.h"
#include "../tests/harness/shuffle_call.h"
#include "bench.h"
#include "product_sheet.h"

/* The records of a full sheet of products, and so many that no cache holds them. */
enum { SHEET_RECORDS = SHEET_MOST_BYTES / PRODUCT_BYTES, MANY_BYTES = 64 << 20 };

struct shuffler {
    shuffle_function *shuffle;
    uint32_t width;
    const uint8_t *records;
    size_t len;
    uint8_t *out;
};

static void run_again(void *context, unsigned long rounds)
{
    struct shuffler *shuffler = context;
    for (unsigned long i = 0; i < rounds; i++)
        shuffler->shuffle(shuffler->width, shuffler->records, shuffler->len, shuffler->out,
                          shuffler->len);
}

/* Room for the most bytes; each page is touched, so that none comes while time is taken. */
static uint8_t *make_room(uint64_t seed)
{
    struct rng rng = {seed};
    uint8_t *room = malloc(MANY_BYTES);
    if (room == NULL) {
        perror("bench");
        exit(1);
    }
    rng_fill(&rng, room, MANY_BYTES);
    return room;
}

/* The times of two that do not write the same would compare nothing. */
static void stop_unless_same(struct shuffler archive, struct shuffler reference,
                             uint8_t *other_out)
{
    reference.out = other_out;
    run_again(&archive, 1);
    run_again(&reference, 1);
    if (memcmp(archive.out, other_out, archive.len) == 0)
        return;
    fprintf(stderr, "bench: archive and reference write other bytes\n");
    exit(1);
}

/* Both write to one output: where its pages lie in memory makes up to a fifth of the time,
   which would be taken for a difference of theirs. */
static void bench_records(uint32_t width, enum direction direction, size_t count,
                          uint8_t *const rooms[3])
{
    size_t len = count * EDONR_PLACES * width;
    struct shuffler shufflers[2] = {
        {archive_shuffles[direction], width, rooms[0], len, rooms[1]},
        {reference_shuffles[direction], width, rooms[0], len, rooms[1]}};
    struct work works[2] = {{run_again, &shufflers[0], 1, 0},
                            {run_again, &shufflers[1], 1, 0}};
    stop_unless_same(shufflers[0], shufflers[1], rooms[2]);
    bench_measure(works, 2);
    double scale = (double)len * 1e-9;
    printf("  width %u  %-9s  %6zu records, %8zu bytes  archive %6.2f GB/s  "
           "reference %6.2f GB/s  time ratio %5.2f\n",
           (unsigned)width, shuffle_names[direction], count, len, scale / works[0].seconds,
           scale / works[1].seconds, works[0].seconds / works[1].seconds);
}

void bench_shuffle(void)
{
    uint8_t *rooms[3] = {make_room(7), make_room(8), make_room(9)};
    printf("F. byte shuffle of records and its way back\n");
    for (uint32_t width = 32; width <= 64; width += 32)
        for (enum direction d = FORWARD; d < DIRECTIONS; d++) {
            bench_records(width, d, SHEET_RECORDS, rooms);
            bench_records(width, d, MANY_BYTES / (EDONR_PLACES * width), rooms);
        }
    for (unsigned i = 0; i < 3; i++)
        free(rooms[i]);
}
