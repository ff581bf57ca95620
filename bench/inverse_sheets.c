#include <stdint.h>
#include <stdio.h>
#include <string.h>

#include "../tests/harness/random.h"
#include "../tests/harness/sheet_maker.h"
#include "../tests/reference/sheet.h"
#include "bench.h"
#include "edonr.h"

typedef uint64_t inverse_sheet_call(uint32_t width, const uint8_t *sheet, size_t sheet_len,
                                    uint8_t *out, size_t out_len);

struct chain {
    inverse_sheet_call *call;
    uint32_t width;
    size_t len;
    uint8_t sheets[2][SHEET_MOST_BYTES];
};

/* Each inverse sheet is the sheet of the next call. */
static void run_chain(void *context, unsigned long rounds)
{
    struct chain *chain = context;
    uint8_t *sheet = chain->sheets[0], *out = chain->sheets[1];
    for (unsigned long i = 0; i < rounds; i++) {
        chain->call(chain->width, sheet, chain->len, out, chain->len);
        uint8_t *written = out;
        out = sheet;
        sheet = written;
    }
}

static struct work chain_work(struct chain *chain, inverse_sheet_call *call, uint32_t width,
                              const struct sheet *sheet)
{
    chain->call = call;
    chain->width = width;
    chain->len = sheet->len;
    memcpy(chain->sheets[0], sheet->bytes, sheet->len);
    return (struct work){run_chain, chain, 1, 0};
}

static void bench_sheet(uint32_t width, const char *kind, const struct sheet *sheet)
{
    struct chain chains[2];
    struct work works[2] = {chain_work(&chains[0], edonr_inverse_sheet, width, sheet),
                            chain_work(&chains[1], reference_inverse_sheet, width, sheet)};
    bench_measure(works, 2);
    double archive = works[0].seconds * 1e9, reference = works[1].seconds * 1e9;
    printf("  width %u  %5zu %-14s  archive %9.1f ns (%6.2f a command)  "
           "reference %9.1f ns  ratio %5.2f\n",
           (unsigned)width, sheet->count, kind, archive, archive / (double)sheet->count,
           reference, archive / reference);
}

static void bench_width(uint32_t width)
{
    static struct sheet sheet;
    random_seed(7);
    make_sheet(width, SHEET_MOST_BYTES, &sheet);
    bench_sheet(width, "mixed commands", &sheet);
    make_counted_sheet(width, SHEET_MOST_BYTES / 2, SHEET_MOST_BYTES, &sheet);
    bench_sheet(width, "flips", &sheet);
}

void bench_inverse_sheets(void)
{
    printf("   inverse sheets of 4,096 bytes, a call\n");
    bench_width(32);
    bench_width(64);
}
