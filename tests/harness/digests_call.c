#include "digests_call.h"

#include <inttypes.h>
#include <string.h>

#include "../reference/answer.h"
#include "../reference/digests.h"
#include "check.h"
#include "edonr.h"
#include "lent.h"
#include "random.h"

static struct lent lent_messages, lent_lengths, out;

/* A list by its bytes; of one that is only claimed their number may not fit a size_t. */
static void place_buffers(const struct digests *digests, const uint8_t *out_before)
{
    size_t len = digests->lengths_len;
    if (out.area == NULL) {
        lent_messages = lent_area(DIGESTS_CALL_MESSAGES, 1);
        lent_lengths =
            lent_area(DIGESTS_CALL_LENGTHS * sizeof(uint32_t), _Alignof(uint32_t));
        out = lent_area(DIGESTS_CALL_OUT, 1);
    }
    lent_place(&lent_messages, digests->messages, digests->messages_len);
    lent_place(&lent_lengths, (const uint8_t *)digests->lengths,
               len <= DIGESTS_CALL_LENGTHS ? len * sizeof(uint32_t) : SIZE_MAX);
    lent_place(&out, out_before, digests->out_len);
}

uint64_t check_digests_call(const struct digests *digests, uint8_t *written)
{
    static uint8_t before[DIGESTS_CALL_OUT], after[DIGESTS_CALL_OUT];
    const struct digests *d = digests;
    size_t held = d->out_len <= DIGESTS_CALL_OUT ? d->out_len : 0;
    random_fill(before, held);
    memcpy(after, before, held);
    place_buffers(d, before);

    uint64_t want = reference_digests(d->size, d->messages, d->messages_len, d->lengths,
                                      d->lengths_len, after, d->out_len);
    const void *list = lent_lengths.bytes;
    uint64_t got = edonr_digests(d->size, lent_messages.bytes, d->messages_len, list,
                                 d->lengths_len, out.bytes, d->out_len);

    size_t claimed = is_refusal(want) ? 0 : (size_t)want;
    bool frame = memcmp(after + claimed, before + claimed, held - claimed) == 0;
    check(got == want && frame && lent_holds(&lent_messages, d->messages) &&
              lent_holds(&lent_lengths, (const uint8_t *)d->lengths) &&
              lent_holds(&out, after),
          "size %" PRIu32 ", %zu bytes, %zu lengths, output of %zu: answered %" PRIx64
          ", expected %" PRIx64,
          d->size, d->messages_len, d->lengths_len, d->out_len, got, want);
    if (written != NULL && claimed > 0)
        memcpy(written, out.bytes, claimed);
    return got;
}
