#include "replay.h"

/* As in sheet.c. */
#define PLACES 8
#include "sheet_places.h"

#define WIDTH 32
#include "replay_width.h"
#undef WIDTH

#define WIDTH 64
#include "replay_width.h"
#undef WIDTH

uint64_t reference_first_false_record(uint32_t width, const uint8_t *vectors,
                                      size_t vectors_len, const uint8_t *sheet,
                                      size_t sheet_len, const uint8_t *records,
                                      size_t records_len, uint64_t finding[FINDING_VALUES])
{
    struct offsets offsets;
    uint64_t refusal = check_run(width, vectors_len, sheet, sheet_len, &offsets);
    if (is_refusal(refusal))
        return refusal;
    size_t record_len = PLACES * (size_t)width, count = records_len / record_len;
    if (records_len % record_len != 0)
        return refuse(BAD_RECORDS, 0);
    if (count > offsets.count)
        return refuse(TOO_MANY_RECORDS, 0);
    return width == 32 ? replay_32(vectors, sheet, offsets.at, records, count, finding)
                       : replay_64(vectors, sheet, offsets.at, records, count, finding);
}
