/*
 * One slice of a sheet, done by the archive and by the reference.
 */
#ifndef HARNESS_SLICE_CALL_H
#define HARNESS_SLICE_CALL_H

#include <stddef.h>
#include <stdint.h>

#include "run_call.h"

/* Vectors over RUN_CALL_VECTORS bytes and sheets over RUN_CALL_SHEET are only claimed, as
   for a run; no slice accepts them. */
struct slice {
    uint32_t width;
    const uint8_t *sheet;
    size_t sheet_len;
    uint32_t offset;
    uint16_t budget;
};

/* Counts one comparison: it passes if both give the same answer and leave the same
   vectors, sheet and guards stand, and a refusal leaves the vectors. Afterwards vectors
   holds what the archive left. Returns the archive's answer. */
uint64_t check_slice_call(const struct slice *slice, uint8_t *vectors, size_t vectors_len);

#endif
