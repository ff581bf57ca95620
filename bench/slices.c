#include <stdint.h>
#include <stdio.h>
#include <stdlib.h>

#include "../tests/harness/random.h"
#include "../tests/harness/rng.h"
#include "../tests/harness/run_call.h"
#include "../tests/harness/sheet_maker.h"
#include "../tests/reference/sheet.h"
#include "bench.h"
#include "edonr.h"
#include "product_sheet.h"

typedef uint64_t slice_function(uint32_t width, uint8_t *vectors, size_t vectors_len,
                                const uint8_t *sheet, size_t sheet_len, uint32_t offset,
                                uint16_t budget);

enum { ARCHIVE, REFERENCE, SIDES };

static slice_function *const slices[SIDES] = {edonr_run_slice, reference_run_slice};
static run_function *const runs[SIDES] = {edonr_run_forward, reference_run_forward};

/* The ways through a sheet: the whole run, and chains of slices of these budgets. */
enum { WHOLE, OF_1, OF_16, OF_256, WAYS };

static const uint16_t budgets[WAYS] = {[OF_1] = 1, [OF_16] = 16, [OF_256] = 256};

struct runner {
    unsigned side;
    uint32_t width;
    const struct sheet *sheet;
    uint16_t budget;
    uint8_t vectors[VECTORS_64];
};

/* Each run starts from the vectors that the one before left, and so does each chain. */
static void run_whole(void *context, unsigned long rounds)
{
    struct runner *runner = context;
    for (unsigned long i = 0; i < rounds; i++)
        runs[runner->side](runner->width, runner->vectors,
                           EDONR_PLACES * (size_t)runner->width, runner->sheet->bytes,
                           runner->sheet->len);
}

/* No slice of these sheets is refused; one that were would start over for ever. */
static void run_chain(void *context, unsigned long rounds)
{
    struct runner *runner = context;
    const struct sheet *sheet = runner->sheet;
    size_t vectors_len = EDONR_PLACES * (size_t)runner->width;
    for (unsigned long i = 0; i < rounds; i++) {
        for (uint32_t offset = 0; offset < sheet->len;) {
            uint64_t answer =
                slices[runner->side](runner->width, runner->vectors, vectors_len,
                                     sheet->bytes, sheet->len, offset, runner->budget);
            if (edonr_refusal(answer) != 0)
                abort();
            offset = edonr_slice_offset(answer);
        }
    }
}

static struct work way_work(struct runner *runner, unsigned side, unsigned way,
                            uint32_t width, const struct sheet *sheet)
{
    struct rng rng = {7};
    runner->side = side;
    runner->width = width;
    runner->sheet = sheet;
    runner->budget = budgets[way];
    rng_fill(&rng, runner->vectors, sizeof runner->vectors);
    return (struct work){way == WHOLE ? run_whole : run_chain, runner, 1, 0};
}

/* Seconds for a sheet, by side and by way, all of them measured in turn. */
static void measure(uint32_t width, const struct sheet *sheet, double seconds[SIDES][WAYS])
{
    struct runner runners[SIDES * WAYS];
    struct work works[SIDES * WAYS];
    for (unsigned i = 0; i < SIDES * WAYS; i++)
        works[i] = way_work(&runners[i], i / WAYS, i % WAYS, width, sheet);
    bench_measure(works, SIDES * WAYS);
    for (unsigned i = 0; i < SIDES * WAYS; i++)
        seconds[i / WAYS][i % WAYS] = works[i].seconds;
}

/* Chains by the time of the whole run, and the mean of one slice of each budget. */
static void print_chains(uint32_t width, const char *kind, const struct sheet *sheet,
                         double seconds[SIDES][WAYS])
{
    printf("  width %u  %5zu %-14s", (unsigned)width, sheet->count, kind);
    for (unsigned way = OF_1; way < WAYS; way++)
        printf("  %6.2f", seconds[ARCHIVE][way] / seconds[ARCHIVE][WHOLE]);
    for (unsigned way = OF_1; way < WAYS; way++) {
        size_t chain = (sheet->count + budgets[way] - 1) / budgets[way];
        printf("  %6.0f", seconds[ARCHIVE][way] / (double)chain * 1e9);
    }
    for (unsigned way = WHOLE; way < WAYS; way++)
        printf("  %6.2f", seconds[ARCHIVE][way] / seconds[REFERENCE][way]);
    printf("\n");
}

static void bench_sheet(uint32_t width, const char *kind, const struct sheet *sheet)
{
    double seconds[SIDES][WAYS];
    measure(width, sheet, seconds);
    print_chains(width, kind, sheet, seconds);
}

static void bench_width(uint32_t width)
{
    static struct sheet sheet;
    sheet.count = SHEET_MOST_BYTES / PRODUCT_BYTES;
    sheet.len = make_products_over(EDONR_PLACES, sheet.bytes, sheet.count);
    bench_sheet(width, "products", &sheet);
    random_seed(7);
    make_sheet(width, SHEET_MOST_BYTES, &sheet);
    bench_sheet(width, "mixed commands", &sheet);
    make_counted_sheet(width, SHEET_MOST_BYTES / 2, SHEET_MOST_BYTES, &sheet);
    bench_sheet(width, "flips", &sheet);
}

void bench_slices(void)
{
    static const char columns[] = "    of 1   of 16  of 256";
    printf("   full sheets by slices of 1, of 16 and of 256 commands\n");
    printf("%-33s%-26s%-26s%s\n", "", "  time to the whole run", "  one slice, ns",
           "  time ratio to the reference");
    printf("%-33s%-26s%-24s   whole%s\n", "", columns, columns, columns);
    bench_width(32);
    bench_width(64);
}
