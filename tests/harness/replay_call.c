#include "replay_call.h"

#include <inttypes.h>
#include <string.h>

#include "../reference/answer.h"
#include "check.h"
#include "edonr.h"
#include "lent.h"
#include "random.h"

_Static_assert(sizeof(struct edonr_finding) == FINDING_VALUES * sizeof(uint64_t),
               "the header's struct has the length that the reference's values have");

static struct lent lent_vectors, lent_sheet, lent_records, lent_finding;

static void place_buffers(const struct replay *replay, const uint64_t *finding_before)
{
    if (lent_finding.area == NULL) {
        lent_vectors = lent_area(RUN_CALL_VECTORS, 1);
        lent_sheet = lent_area(RUN_CALL_SHEET, 1);
        lent_records = lent_area(REPLAY_CALL_RECORDS, 1);
        lent_finding =
            lent_area(sizeof(struct edonr_finding), _Alignof(struct edonr_finding));
    }
    lent_place(&lent_vectors, replay->vectors, replay->vectors_len);
    lent_place(&lent_sheet, replay->sheet, replay->sheet_len);
    lent_place(&lent_records, replay->records, replay->records_len);
    lent_place(&lent_finding, (const uint8_t *)finding_before,
               sizeof(struct edonr_finding));
}

static bool inputs_stand(const struct replay *replay)
{
    return lent_holds(&lent_vectors, replay->vectors) &&
           lent_holds(&lent_sheet, replay->sheet) &&
           lent_holds(&lent_records, replay->records);
}

uint64_t check_replay_call(const struct replay *replay, uint64_t finding[FINDING_VALUES])
{
    uint64_t before[FINDING_VALUES], after[FINDING_VALUES];
    random_fill((uint8_t *)before, sizeof before);
    memcpy(after, before, sizeof after);
    place_buffers(replay, before);

    uint64_t want = reference_first_false_record(
        replay->width, replay->vectors, replay->vectors_len, replay->sheet,
        replay->sheet_len, replay->records, replay->records_len, after);
    void *lent = lent_finding.bytes;
    uint64_t got = edonr_first_false_record(
        replay->width, lent_vectors.bytes, replay->vectors_len, lent_sheet.bytes,
        replay->sheet_len, lent_records.bytes, replay->records_len, lent);

    bool is_false = want != 0 && !is_refusal(want);
    bool stands = is_false || memcmp(after, before, sizeof after) == 0;
    check(got == want && stands && inputs_stand(replay) &&
              lent_holds(&lent_finding, (const uint8_t *)after),
          "width %" PRIu32 ", vectors of %zu bytes, sheet of %zu, records of %zu: "
          "answered %" PRIx64 ", expected %" PRIx64,
          replay->width, replay->vectors_len, replay->sheet_len, replay->records_len, got,
          want);
    if (finding != NULL)
        memcpy(finding, lent, sizeof after);
    return got;
}
