/*
 * One count of the flipped bits of pairs of digests, made by the archive and by the
 * reference.
 */
#ifndef HARNESS_FLIPS_CALL_H
#define HARNESS_FLIPS_CALL_H

#include <stddef.h>
#include <stdint.h>

/* What a record takes, which is a pair of digests, in bytes; the most records that a call
   accepts; and what is lent at most: of the records in bytes, of the list in counts. Both
   have room for twice the most, so that what is refused is there to be read or written. */
enum {
    PAIR = 2 * 32,
    MOST_PAIRS = 1024,
    FLIPS_CALL_RECORDS = (2 * MOST_PAIRS + 1) * PAIR,
    FLIPS_CALL_COUNTS = 2 * MOST_PAIRS + 1
};

/* Records over FLIPS_CALL_RECORDS bytes are only claimed, as no call accepts them. A list
   of over FLIPS_CALL_COUNTS is only claimed too, for records that are refused. */
struct flips {
    const uint8_t *records;
    size_t records_len, counts_len;
};

/* Counts one comparison: it passes if both give the same answer, the list holds the same
   counts afterwards, records and guards stand, and so do all counts behind those of the
   records, and with a refusal all. After a success written holds the counts that the
   archive wrote, if it is not null. Returns the archive's answer. */
uint64_t check_flips_call(const struct flips *flips, uint16_t *written);

#endif
