/*
 * Answers as the C calls give them: a success's own number, or 2^32 times the refusal
 * number plus the offset. A success of a feeding or of a byte shuffle, either way, can be
 * past 2^32, so their refusals are marked by bit 63 as well. The numbers are written here
 * again, and not taken from the kit's header, so that a wrong number there is found.
 */
#ifndef REFERENCE_ANSWER_H
#define REFERENCE_ANSWER_H

#include <stdint.h>

enum refusal {
    BAD_SIZE = 1,
    BAD_STATE = 2,
    MESSAGE_TOO_LONG = 3,
    OUTPUT_TOO_SHORT = 4,
    BAD_WIDTH = 5,
    BAD_LENGTH = 6,
    SHEET_TOO_LONG = 7,
    BAD_COMMAND = 8,
    CUT_COMMAND = 9,
    BAD_PLACE = 10,
    SAME_PLACE = 11,
    TOO_MANY_MESSAGES = 12,
    BAD_JOINED_LENGTH = 13,
    BAD_START = 14,
    BAD_BIT_COUNT = 15,
    BAD_RECORDS = 16,
    TOO_MANY_RECORDS = 17,
    BAD_PAIRS = 19
};

/* The most bytes of one message. */
#define MOST_BYTES_FED (((uint64_t)1 << 61) - 1)

static inline uint64_t refuse(enum refusal refusal, uint64_t offset)
{
    return ((uint64_t)refusal << 32) + offset;
}

static inline int is_refusal(uint64_t answer)
{
    return answer >> 32 != 0;
}

static inline uint64_t refuse_marked(enum refusal refusal)
{
    return ((uint64_t)1 << 63) + refuse(refusal, 0);
}

static inline int is_marked_refusal(uint64_t answer)
{
    return answer >> 63 != 0;
}

#endif
