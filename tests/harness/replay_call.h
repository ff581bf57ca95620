/*
 * One search for the first false record of a run, made by the archive and by the reference.
 */
#ifndef HARNESS_REPLAY_CALL_H
#define HARNESS_REPLAY_CALL_H

#include <stddef.h>
#include <stdint.h>

#include "../reference/replay.h"
#include "run_call.h"
#include "shuffle_call.h"

/* The longest records that are lent, in bytes: one more than the most commands have. */
enum { REPLAY_CALL_RECORDS = (MOST_RECORDS + 1) * RECORD_64 };

/* Records over REPLAY_CALL_RECORDS bytes are only claimed, and so are vectors and sheets as
   for a run; no call accepts them. */
struct replay {
    uint32_t width;
    const uint8_t *vectors;
    size_t vectors_len;
    const uint8_t *sheet;
    size_t sheet_len;
    const uint8_t *records;
    size_t records_len;
};

/* Counts one comparison: it passes if both give the same answer and find the same, vectors,
   sheet, records and guards stand, and where no record is false, so does what lay in place
   of the finding. Afterwards finding holds what the archive left there, if it is not null.
   Returns the archive's answer. */
uint64_t check_replay_call(const struct replay *replay, uint64_t finding[FINDING_VALUES]);

#endif
