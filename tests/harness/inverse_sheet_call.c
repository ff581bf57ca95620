#include "inverse_sheet_call.h"

#include <inttypes.h>
#include <string.h>

#include "../reference/answer.h"
#include "../reference/sheet.h"
#include "check.h"
#include "edonr.h"
#include "lent.h"
#include "random.h"

static struct lent lent_sheet, lent_out;

static void place_buffers(const uint8_t *sheet, size_t sheet_len, const uint8_t *out_before,
                          size_t out_len)
{
    if (lent_out.area == NULL) {
        lent_sheet = lent_area(INVERSE_SHEET_CALL_CAPACITY, 1);
        lent_out = lent_area(INVERSE_SHEET_CALL_CAPACITY, 1);
    }
    lent_place(&lent_sheet, sheet, sheet_len);
    lent_place(&lent_out, out_before, out_len);
}

uint64_t check_inverse_sheet_call(uint32_t width, const uint8_t *sheet, size_t sheet_len,
                                  size_t out_len, uint8_t *inverse)
{
    uint8_t before[INVERSE_SHEET_CALL_CAPACITY], after[INVERSE_SHEET_CALL_CAPACITY];
    size_t held = out_len <= INVERSE_SHEET_CALL_CAPACITY ? out_len : 0;
    random_fill(before, held);
    memcpy(after, before, held);
    place_buffers(sheet, sheet_len, before, out_len);

    uint64_t want = reference_inverse_sheet(width, sheet, sheet_len, after, out_len);
    uint64_t got =
        edonr_inverse_sheet(width, lent_sheet.bytes, sheet_len, lent_out.bytes, out_len);

    size_t written = is_refusal(want) ? 0 : (size_t)want;
    bool frame = memcmp(after + written, before + written, held - written) == 0;
    check(got == want && frame && lent_holds(&lent_sheet, sheet) &&
              lent_holds(&lent_out, after),
          "width %" PRIu32 ", sheet of %zu bytes, output of %zu: answered %" PRIx64
          ", expected %" PRIx64,
          width, sheet_len, out_len, got, want);
    if (inverse != NULL && written > 0)
        memcpy(inverse, lent_out.bytes, written);
    return got;
}
