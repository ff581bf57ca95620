/*
 * One byte shuffle of records, or its way back, made by the archive and by the reference.
 */
#ifndef HARNESS_SHUFFLE_CALL_H
#define HARNESS_SHUFFLE_CALL_H

#include <stddef.h>
#include <stdint.h>

#include "direction.h"
#include "edonr.h"

typedef uint64_t shuffle_function(uint32_t width, const uint8_t *records,
                                  size_t records_len, uint8_t *out, size_t out_len);

/* Forward is the shuffle, backward the way back. */
extern shuffle_function *const archive_shuffles[DIRECTIONS];
extern shuffle_function *const reference_shuffles[DIRECTIONS];
extern const char *const shuffle_names[DIRECTIONS];

/* What a record takes at either width, in bytes. */
enum { RECORD_32 = EDONR_PLACES * 32, RECORD_64 = EDONR_PLACES * 64 };

/* The records of the most commands that a sheet has, 2,048 flips, and the longest records
   and the longest output that are lent, in bytes. What is longer is only claimed, for a
   call that is refused. */
enum { MOST_RECORDS = 4096 / 2, SHUFFLE_CALL_CAPACITY = (MOST_RECORDS + 1) * RECORD_64 };

struct shuffle {
    enum direction direction;
    uint32_t width;
    const uint8_t *records;
    size_t records_len, out_len;
};

/* Counts one comparison: it passes if both give the same answer, the output holds the same
   bytes afterwards, records and guards stand, and so does all of the output that the answer
   does not claim. After a success written holds what the archive wrote, if it is not null.
   Returns the archive's answer. */
uint64_t check_shuffle_call(const struct shuffle *shuffle, uint8_t *written);

#endif
