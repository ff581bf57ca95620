#include "digest_call.h"

#include <inttypes.h>
#include <string.h>

#include "../reference/answer.h"
#include "../reference/digest.h"
#include "check.h"
#include "edonr.h"
#include "lent.h"
#include "random.h"

static struct lent lent_message, out;

static void place_buffers(const uint8_t *message, size_t message_len,
                          const uint8_t *out_before, size_t out_len)
{
    if (out.area == NULL) {
        lent_message = lent_area(DIGEST_CALL_MESSAGE, 1);
        out = lent_area(DIGEST_CALL_OUT, 1);
    }
    lent_place(&lent_message, message, message_len);
    lent_place(&out, out_before, out_len);
}

uint64_t check_digest_call(uint32_t size, const uint8_t *message, size_t message_len,
                           size_t out_len)
{
    uint8_t before[DIGEST_CALL_OUT], after[DIGEST_CALL_OUT];
    random_fill(before, out_len);
    memcpy(after, before, out_len);
    place_buffers(message, message_len, before, out_len);

    uint64_t want = reference_digest(size, message, message_len, after, out_len);
    uint64_t got = edonr_digest(size, lent_message.bytes, message_len, out.bytes, out_len);

    size_t written = is_refusal(want) ? 0 : (size_t)want;
    bool frame = memcmp(after + written, before + written, out_len - written) == 0;
    check(got == want && frame && lent_holds(&lent_message, message) &&
              lent_holds(&out, after),
          "size %" PRIu32 ", message of %zu bytes, output of %zu: answered %" PRIx64
          ", expected %" PRIx64,
          size, message_len, out_len, got, want);
    return got;
}
