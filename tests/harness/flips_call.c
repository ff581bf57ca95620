#include "flips_call.h"

#include <inttypes.h>
#include <string.h>

#include "../reference/answer.h"
#include "../reference/flips.h"
#include "check.h"
#include "edonr.h"
#include "lent.h"
#include "random.h"

static struct lent lent_records, lent_counts;

/* A list by its bytes; of one that is only claimed their number may not fit a size_t. */
static void place_buffers(const struct flips *flips, const uint16_t *counts_before)
{
    size_t len = flips->counts_len;
    if (lent_counts.area == NULL) {
        lent_records = lent_area(FLIPS_CALL_RECORDS, 1);
        lent_counts = lent_area(FLIPS_CALL_COUNTS * sizeof(uint16_t), _Alignof(uint16_t));
    }
    lent_place(&lent_records, flips->records, flips->records_len);
    lent_place(&lent_counts, (const uint8_t *)counts_before,
               len <= FLIPS_CALL_COUNTS ? len * sizeof(uint16_t) : SIZE_MAX);
}

/* What lies in a list before the call: mostly any numbers, else ones all through. */
static void fill_list(uint16_t *counts, size_t len)
{
    if (random_below(4) == 0)
        memset(counts, 0xFF, len * sizeof counts[0]);
    else
        random_fill((uint8_t *)counts, len * sizeof counts[0]);
}

uint64_t check_flips_call(const struct flips *flips, uint16_t *written)
{
    static uint16_t before[FLIPS_CALL_COUNTS], after[FLIPS_CALL_COUNTS];
    size_t len = flips->records_len, counts_len = flips->counts_len;
    size_t held = counts_len <= FLIPS_CALL_COUNTS ? counts_len : 0;
    fill_list(before, held);
    memcpy(after, before, held * sizeof before[0]);
    place_buffers(flips, before);

    uint64_t want = reference_flipped_bits(flips->records, len, after, counts_len);
    void *list = lent_counts.bytes;
    uint64_t got = edonr_flipped_bits(lent_records.bytes, len, list, counts_len);

    size_t claimed = is_refusal(want) ? 0 : len / PAIR;
    bool frame =
        memcmp(after + claimed, before + claimed, (held - claimed) * sizeof before[0]) == 0;
    check(got == want && frame && lent_holds(&lent_records, flips->records) &&
              lent_holds(&lent_counts, (const uint8_t *)after),
          "records of %zu bytes, list of %zu: answered %" PRIx64 ", expected %" PRIx64, len,
          counts_len, got, want);
    if (written != NULL && claimed > 0)
        memcpy(written, list, claimed * sizeof written[0]);
    return got;
}
