#include "shuffle_call.h"

#include <inttypes.h>
#include <string.h>

#include "../reference/answer.h"
#include "../reference/shuffle.h"
#include "check.h"
#include "lent.h"
#include "random.h"

shuffle_function *const archive_shuffles[DIRECTIONS] = {edonr_shuffle, edonr_unshuffle};
shuffle_function *const reference_shuffles[DIRECTIONS] = {reference_shuffle,
                                                          reference_unshuffle};
const char *const shuffle_names[DIRECTIONS] = {"shuffle", "unshuffle"};

static struct lent lent_records, lent_out;

static void place_buffers(const struct shuffle *shuffle, const uint8_t *out_before)
{
    if (lent_out.area == NULL) {
        lent_records = lent_area(SHUFFLE_CALL_CAPACITY, 1);
        lent_out = lent_area(SHUFFLE_CALL_CAPACITY, 1);
    }
    lent_place(&lent_records, shuffle->records, shuffle->records_len);
    lent_place(&lent_out, out_before, shuffle->out_len);
}

uint64_t check_shuffle_call(const struct shuffle *shuffle, uint8_t *written)
{
    static uint8_t before[SHUFFLE_CALL_CAPACITY], after[SHUFFLE_CALL_CAPACITY];
    size_t len = shuffle->records_len, out_len = shuffle->out_len;
    size_t held = out_len <= SHUFFLE_CALL_CAPACITY ? out_len : 0;
    random_fill(before, held);
    memcpy(after, before, held);
    place_buffers(shuffle, before);

    uint64_t want = reference_shuffles[shuffle->direction](shuffle->width, shuffle->records,
                                                           len, after, out_len);
    uint64_t got = archive_shuffles[shuffle->direction](shuffle->width, lent_records.bytes,
                                                        len, lent_out.bytes, out_len);

    size_t claimed = is_marked_refusal(want) ? 0 : (size_t)want;
    bool frame = memcmp(after + claimed, before + claimed, held - claimed) == 0;
    check(got == want && frame && lent_holds(&lent_records, shuffle->records) &&
              lent_holds(&lent_out, after),
          "%s, width %" PRIu32 ", records of %zu bytes, output of %zu: answered %" PRIx64
          ", expected %" PRIx64,
          shuffle_names[shuffle->direction], shuffle->width, len, out_len, got, want);
    if (written != NULL && claimed > 0)
        memcpy(written, lent_out.bytes, claimed);
    return got;
}
