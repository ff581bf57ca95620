#include <stdint.h>
#include <stdio.h>

#include "../tests/harness/rng.h"
#include "../tests/harness/run_call.h"
#include "bench.h"
#include "product_sheet.h"

enum { MOST_BYTES = 4096, FLIP = 6, FLIP_BYTES = 2 };

/* Sheets of products are measured over the first few places and over all of them: vectors
   that fit into the registers of some processor, and twice as many. */
enum { FEW_PLACES = 4 };

struct runner {
    run_function *run;
    uint32_t width;
    const uint8_t *sheet;
    size_t sheet_len;
    uint8_t vectors[VECTORS_64];
};

/* Each run starts from the vectors that the one before left. */
static void run_again(void *context, unsigned long rounds)
{
    struct runner *runner = context;
    for (unsigned long i = 0; i < rounds; i++)
        runner->run(runner->width, runner->vectors, EDONR_PLACES * (size_t)runner->width,
                    runner->sheet, runner->sheet_len);
}

static size_t make_products(uint8_t *sheet, size_t commands)
{
    return make_products_over(EDONR_PLACES, sheet, commands);
}

static size_t make_flips(uint8_t *sheet, size_t commands)
{
    for (size_t i = 0; i < commands; i++) {
        sheet[FLIP_BYTES * i] = FLIP;
        sheet[FLIP_BYTES * i + 1] = (uint8_t)(i % EDONR_PLACES);
    }
    return FLIP_BYTES * commands;
}

struct sheet_bytes {
    uint8_t at[MOST_BYTES];
    size_t len;
};

struct times {
    double archive, reference; /* seconds for one run */
};

static struct work run_work(struct runner *runner, run_function *run, uint32_t width,
                            const struct sheet_bytes *sheet)
{
    struct rng rng = {7};
    runner->run = run;
    runner->width = width;
    runner->sheet = sheet->at;
    runner->sheet_len = sheet->len;
    rng_fill(&rng, runner->vectors, sizeof runner->vectors);
    return (struct work){run_again, runner, 1, 0};
}

enum { MOST_SHEETS = 2 };

/* Times of up to MOST_SHEETS sheets, all of them in turn. */
static void measure(enum direction direction, uint32_t width,
                    const struct sheet_bytes *sheets, unsigned count, struct times *times)
{
    struct runner runners[2 * MOST_SHEETS];
    struct work works[2 * MOST_SHEETS];
    for (unsigned i = 0; i < count; i++) {
        works[2 * i] =
            run_work(&runners[2 * i], archive_runs[direction], width, &sheets[i]);
        works[2 * i + 1] =
            run_work(&runners[2 * i + 1], reference_runs[direction], width, &sheets[i]);
    }
    bench_measure(works, 2 * count);
    for (unsigned i = 0; i < count; i++)
        times[i] = (struct times){works[2 * i].seconds, works[2 * i + 1].seconds};
}

/* 1,364 products and two flips fill 4,096 bytes. */
enum { PRODUCTS = (MOST_BYTES - 2 * FLIP_BYTES) / PRODUCT_BYTES };

static void fill_sheet(size_t places, struct sheet_bytes *sheet)
{
    sheet->len = make_products_over(places, sheet->at, PRODUCTS);
    sheet->len += make_flips(sheet->at + sheet->len, 2);
}

static void print_columns(const struct times *times)
{
    double units = PRODUCTS * 1e-6;
    printf("  %7.2f  %9.2f  %5.2f", units / times->archive, units / times->reference,
           times->archive / times->reference);
}

/* Few places and all of them, beside each other. */
static void bench_full_sheets(uint32_t width, enum direction direction)
{
    struct sheet_bytes sheets[2];
    struct times times[2];
    fill_sheet(FEW_PLACES, &sheets[0]);
    fill_sheet(EDONR_PLACES, &sheets[1]);
    measure(direction, width, sheets, 2, times);
    printf("  width %u  %-8s", (unsigned)width, direction_name(direction));
    print_columns(&times[0]);
    print_columns(&times[1]);
    printf("  %7.2f  %9.2f\n", times[1].archive / times[0].archive,
           times[1].reference / times[0].reference);
}

/* How a run's time grows with its commands. */
static void bench_growth(const char *kind, size_t (*make)(uint8_t *, size_t),
                         enum direction direction, const size_t *counts)
{
    for (unsigned i = 0; i < 4; i++) {
        struct sheet_bytes sheet;
        struct times times;
        sheet.len = make(sheet.at, counts[i]);
        measure(direction, 32, &sheet, 1, &times);
        printf("  width 32  %-8s  %5zu %-8s  archive %9.1f ns (%6.2f a command)  "
               "reference %9.1f ns  ratio %5.2f\n",
               direction_name(direction), counts[i], kind, times.archive * 1e9,
               times.archive * 1e9 / (double)counts[i], times.reference * 1e9,
               times.archive / times.reference);
    }
}

void bench_sheets(void)
{
    static const size_t flips[4] = {1, 16, 256, MOST_BYTES / FLIP_BYTES};
    static const size_t products[4] = {1, 16, 256, MOST_BYTES / PRODUCT_BYTES};
    printf("C. sheets of 4,096 bytes, products over %d and over %d places: million units/s, "
           "time ratios\n",
           FEW_PLACES, EDONR_PLACES);
    printf("                      over %d places              over %d places              "
           "time of %d to %d\n",
           FEW_PLACES, EDONR_PLACES, EDONR_PLACES, FEW_PLACES);
    printf("                      archive  reference  ratio  archive  reference  ratio  "
           "archive  reference\n");
    for (enum direction d = FORWARD; d < DIRECTIONS; d++) {
        bench_full_sheets(32, d);
        bench_full_sheets(64, d);
    }
    printf("   runs by number of commands\n");
    for (enum direction d = FORWARD; d < DIRECTIONS; d++) {
        bench_growth("flips", make_flips, d, flips);
        bench_growth("products", make_products, d, products);
    }
}
