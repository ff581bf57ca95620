#include "run_call.h"

#include <inttypes.h>
#include <string.h>

#include "../reference/answer.h"
#include "../reference/sheet.h"
#include "check.h"
#include "lent.h"

run_function *const archive_runs[DIRECTIONS] = {edonr_run_forward, edonr_run_backward};
run_function *const reference_runs[DIRECTIONS] = {reference_run_forward,
                                                  reference_run_backward};

static struct lent lent_vectors, lent_sheet;

static void place_buffers(const struct run *run, const uint8_t *vectors, size_t vectors_len)
{
    if (lent_sheet.area == NULL) {
        lent_vectors = lent_area(RUN_CALL_VECTORS, 1);
        lent_sheet = lent_area(RUN_CALL_SHEET, 1);
    }
    lent_place(&lent_vectors, vectors, vectors_len);
    lent_place(&lent_sheet, run->sheet, run->sheet_len);
}

uint64_t check_run_call(const struct run *run, uint8_t *vectors, size_t vectors_len)
{
    uint8_t after[RUN_CALL_VECTORS];
    size_t held = vectors_len <= RUN_CALL_VECTORS ? vectors_len : 0;
    memcpy(after, vectors, held);
    place_buffers(run, vectors, vectors_len);

    uint64_t want = reference_runs[run->direction](run->width, after, vectors_len,
                                                   run->sheet, run->sheet_len);
    uint64_t got = archive_runs[run->direction](run->width, lent_vectors.bytes, vectors_len,
                                                lent_sheet.bytes, run->sheet_len);

    bool stands = !is_refusal(want) || memcmp(after, vectors, held) == 0;
    check(got == want && stands && lent_holds(&lent_vectors, after) &&
              lent_holds(&lent_sheet, run->sheet),
          "%s run, width %" PRIu32 ", vectors of %zu bytes, sheet of %zu: answered %" PRIx64
          ", expected %" PRIx64,
          direction_name(run->direction), run->width, vectors_len, run->sheet_len, got,
          want);
    if (held > 0)
        memcpy(vectors, lent_vectors.bytes, held);
    return got;
}
