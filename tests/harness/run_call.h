/*
 * One run of a sheet, made by the archive and by the reference.
 */
#ifndef HARNESS_RUN_CALL_H
#define HARNESS_RUN_CALL_H

#include <stddef.h>
#include <stdint.h>

#include "direction.h"
#include "edonr.h"

typedef uint64_t run_function(uint32_t width, uint8_t *vectors, size_t vectors_len,
                              const uint8_t *sheet, size_t sheet_len);

extern run_function *const archive_runs[DIRECTIONS];
extern run_function *const reference_runs[DIRECTIONS];

/* What the vectors of a run take at either width, in bytes. */
enum { VECTORS_32 = EDONR_PLACES * 32, VECTORS_64 = EDONR_PLACES * 64 };

/* The most vectors and the longest sheet that are lent, in bytes. What is longer is only
   claimed; no run accepts it. */
enum { RUN_CALL_VECTORS = 4 * VECTORS_64, RUN_CALL_SHEET = 8192 };

struct run {
    enum direction direction;
    uint32_t width;
    const uint8_t *sheet;
    size_t sheet_len;
};

/* Counts one comparison: it passes if both give the same answer and leave the same
   vectors, sheet and guards stand, and a refusal leaves the vectors. Afterwards vectors
   holds what the archive left. Returns the archive's answer. */
uint64_t check_run_call(const struct run *run, uint8_t *vectors, size_t vectors_len);

#endif
