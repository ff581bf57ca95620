#include <stdint.h>
#include <stdio.h>
#include <stdlib.h>
#include <string.h>

#include "../tests/harness/random.h"
#include "../tests/harness/recording.h"
#include "../tests/harness/rng.h"
#include "../tests/harness/run_call.h"
#include "../tests/harness/sheet_maker.h"
#include "../tests/reference/replay.h"
#include "bench.h"
#include "edonr.h"
#include "product_sheet.h"

/* A forward run, the archive's replay of all that it recorded, and the reference's. */
enum { RUN, REPLAY, REFERENCE, WAYS };

enum { MOST_RECORDS = SHEET_MOST_BYTES / 2 };

static uint8_t records[MOST_RECORDS * VECTORS_64];

struct recording {
    uint32_t width;
    const struct sheet *sheet;
    uint8_t start[VECTORS_64], vectors[VECTORS_64];
    size_t records_len;
};

static void run_forward(void *context, unsigned long rounds)
{
    struct recording *recording = context;
    for (unsigned long i = 0; i < rounds; i++)
        edonr_run_forward(recording->width, recording->vectors,
                          EDONR_PLACES * (size_t)recording->width, recording->sheet->bytes,
                          recording->sheet->len);
}

/* Every record holds, so that all are looked at. */
static void replay(void *context, unsigned long rounds)
{
    struct recording *recording = context;
    struct edonr_finding finding;
    for (unsigned long i = 0; i < rounds; i++)
        if (edonr_first_false_record(recording->width, recording->start,
                                     EDONR_PLACES * (size_t)recording->width,
                                     recording->sheet->bytes, recording->sheet->len,
                                     records, recording->records_len, &finding) != 0)
            abort();
}

static void replay_by_reference(void *context, unsigned long rounds)
{
    struct recording *recording = context;
    uint64_t finding[5];
    for (unsigned long i = 0; i < rounds; i++)
        if (reference_first_false_record(recording->width, recording->start,
                                         EDONR_PLACES * (size_t)recording->width,
                                         recording->sheet->bytes, recording->sheet->len,
                                         records, recording->records_len, finding) != 0)
            abort();
}

static void bench_sheet(uint32_t width, const char *kind, const struct sheet *sheet)
{
    struct recording recording = {.width = width, .sheet = sheet};
    struct rng rng = {7};
    rng_fill(&rng, recording.start, sizeof recording.start);
    memcpy(recording.vectors, recording.start, sizeof recording.start);
    recording.records_len = sheet->count * EDONR_PLACES * (size_t)width;
    record_run(width, recording.start, sheet, sheet->count, records);
    struct work works[WAYS] = {[RUN] = {run_forward, &recording, 1, 0},
                               [REPLAY] = {replay, &recording, 1, 0},
                               [REFERENCE] = {replay_by_reference, &recording, 1, 0}};
    bench_measure(works, WAYS);
    double count = (double)sheet->count;
    printf("  width %u  %5zu %-14s  run %6.2f ns a command  replay %6.2f ns a record  "
           "ratio %5.2f  to the reference %5.2f\n",
           (unsigned)width, sheet->count, kind, works[RUN].seconds / count * 1e9,
           works[REPLAY].seconds / count * 1e9, works[REPLAY].seconds / works[RUN].seconds,
           works[REPLAY].seconds / works[REFERENCE].seconds);
}

/* Products of so many commands; the offsets are those of commands of three bytes. */
static void bench_products(uint32_t width, size_t count)
{
    static struct sheet sheet;
    sheet.count = count;
    sheet.len = make_products_over(EDONR_PLACES, sheet.bytes, count);
    for (size_t i = 0; i < count; i++)
        sheet.offsets[i] = i * PRODUCT_BYTES;
    bench_sheet(width, "products", &sheet);
}

static void bench_width(uint32_t width)
{
    static struct sheet sheet;
    bench_products(width, 16);
    bench_products(width, 256);
    bench_products(width, SHEET_MOST_BYTES / PRODUCT_BYTES);
    random_seed(7);
    make_sheet(width, SHEET_MOST_BYTES, &sheet);
    bench_sheet(width, "mixed commands", &sheet);
    make_counted_sheet(width, MOST_RECORDS, SHEET_MOST_BYTES, &sheet);
    bench_sheet(width, "flips", &sheet);
}

void bench_replay(void)
{
    printf("   recorded runs held against the run\n");
    bench_width(32);
    bench_width(64);
}
