/*
 * What a thread is loaded with: vectors for all places and a sheet.
 *
 * From a seed both are made by splitmix64, whose state starts as the seed. The vectors come
 * first: each number gives eight bytes, the lowest first. Then the commands: a number
 * modulo 8 chooses among the kinds 01 to 08, a number modulo EDONR_PLACES is the place d,
 * and a number modulo EDONR_PLACES - 1 chooses s among the other places in rising order
 * from d + 1, round from the last to 0; K is made as the vectors are. The sheet ends before
 * the first command for which 4,096 bytes leave no room.
 */
#ifndef PROBE_LOAD_H
#define PROBE_LOAD_H

#include <stdbool.h>
#include <stddef.h>
#include <stdint.h>

#include "edonr.h"
#include "options.h"

enum { MOST_VECTORS_BYTES = EDONR_PLACES * 64, MOST_SHEET_BYTES = 4096 };

struct load {
    uint32_t width;
    uint64_t seed;
    uint8_t vectors[MOST_VECTORS_BYTES]; /* as they are at the start */
    size_t vectors_len;
    uint8_t sheet[MOST_SHEET_BYTES + 1]; /* one byte more shows a file that is too long */
    size_t sheet_len;
    uint64_t units;    /* the answer that every run of the sheet has to give */
    uint64_t commands; /* how many there are in the sheet */
};

/* One load for each thread. False, and a message on stderr, if a file cannot be read or
   its sheet is refused. A sheet of no units loads nothing: a message on stderr warns of
   it. */
bool load_prepare(const struct options *options, struct load *loads);

#endif
