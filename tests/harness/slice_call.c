#include "slice_call.h"

#include <inttypes.h>
#include <string.h>

#include "../reference/answer.h"
#include "../reference/sheet.h"
#include "check.h"
#include "edonr.h"
#include "lent.h"

static struct lent lent_vectors, lent_sheet;

static void place_buffers(const struct slice *slice, const uint8_t *vectors,
                          size_t vectors_len)
{
    if (lent_sheet.area == NULL) {
        lent_vectors = lent_area(RUN_CALL_VECTORS, 1);
        lent_sheet = lent_area(RUN_CALL_SHEET, 1);
    }
    lent_place(&lent_vectors, vectors, vectors_len);
    lent_place(&lent_sheet, slice->sheet, slice->sheet_len);
}

uint64_t check_slice_call(const struct slice *slice, uint8_t *vectors, size_t vectors_len)
{
    uint8_t after[RUN_CALL_VECTORS];
    size_t held = vectors_len <= RUN_CALL_VECTORS ? vectors_len : 0;
    memcpy(after, vectors, held);
    place_buffers(slice, vectors, vectors_len);

    uint64_t want = reference_run_slice(slice->width, after, vectors_len, slice->sheet,
                                        slice->sheet_len, slice->offset, slice->budget);
    uint64_t got =
        edonr_run_slice(slice->width, lent_vectors.bytes, vectors_len, lent_sheet.bytes,
                        slice->sheet_len, slice->offset, slice->budget);

    bool stands = !is_refusal(want) || memcmp(after, vectors, held) == 0;
    check(got == want && stands && lent_holds(&lent_vectors, after) &&
              lent_holds(&lent_sheet, slice->sheet),
          "width %" PRIu32 ", vectors of %zu bytes, sheet of %zu, offset %" PRIu32
          ", budget %u: answered %" PRIx64 ", expected %" PRIx64,
          slice->width, vectors_len, slice->sheet_len, slice->offset,
          (unsigned)slice->budget, got, want);
    if (held > 0)
        memcpy(vectors, lent_vectors.bytes, held);
    return got;
}
