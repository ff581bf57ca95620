/*
 * Where a recorded run first went wrong: what edonr_first_false_record does, written
 * independently, from document 02, Paper 10. Before it, reference_init comes first.
 */
#ifndef REFERENCE_REPLAY_H
#define REFERENCE_REPLAY_H

#include <stddef.h>
#include <stdint.h>

/* What stands beside the number of a false record: the offset of its command, the place and
   the number of the first word that differs, what stands there and what should. */
enum {
    FINDING_OFFSET,
    FINDING_PLACE,
    FINDING_WORD,
    FINDING_FOUND,
    FINDING_EXPECTED,
    FINDING_VALUES
};

uint64_t reference_first_false_record(uint32_t width, const uint8_t *vectors,
                                      size_t vectors_len, const uint8_t *sheet,
                                      size_t sheet_len, const uint8_t *records,
                                      size_t records_len, uint64_t finding[FINDING_VALUES]);

#endif
