/*
 * One call of the digests of many messages, made to the archive and to the reference.
 */
#ifndef HARNESS_DIGESTS_CALL_H
#define HARNESS_DIGESTS_CALL_H

#include <stddef.h>
#include <stdint.h>

/* The most messages that a call accepts, and what is lent at most: of the joined messages
   in bytes, of the list in lengths, of the output in bytes. List and output have room for
   twice the most, so that what is refused is there to be read or written. */
enum {
    MOST_MESSAGES = 1024,
    DIGESTS_CALL_MESSAGES = 1 << 20,
    DIGESTS_CALL_LENGTHS = 2 * MOST_MESSAGES + 1,
    DIGESTS_CALL_OUT = DIGESTS_CALL_LENGTHS * 64
};

/* Longer messages are only claimed, and so is a longer output, for a call that is refused.
   A longer list is only claimed too, as no call accepts it. */
struct digests {
    uint32_t size;
    const uint8_t *messages;
    size_t messages_len;
    const uint32_t *lengths;
    size_t lengths_len, out_len;
};

/* Counts one comparison: it passes if both give the same answer, the output holds the same
   bytes afterwards, messages, lengths and guards stand, and so does all of the output that
   the answer does not claim. After a success written holds the digests that the archive
   wrote, if it is not null. Returns the archive's answer. */
uint64_t check_digests_call(const struct digests *digests, uint8_t *written);

#endif
