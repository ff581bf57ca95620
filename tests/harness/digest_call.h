/*
 * One call of the digest, made to the archive and to the reference.
 */
#ifndef HARNESS_DIGEST_CALL_H
#define HARNESS_DIGEST_CALL_H

#include <stddef.h>
#include <stdint.h>

/* The longest message that is lent and the longest output. A longer message is only
   claimed, for a call that refuses it. */
enum { DIGEST_CALL_MESSAGE = 16 << 20, DIGEST_CALL_OUT = 512 };

/* Counts one comparison: it passes if both give the same answer, the output holds the same
   bytes afterwards, message and guards stand, and so does all of the output that the
   answer does not claim. Returns the archive's answer. */
uint64_t check_digest_call(uint32_t size, const uint8_t *message, size_t message_len,
                           size_t out_len);

#endif
