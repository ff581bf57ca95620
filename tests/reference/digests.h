/*
 * The digests of many messages in one call: what edonr_digests does, written
 * independently, from document 02, Paper 2.
 */
#ifndef REFERENCE_DIGESTS_H
#define REFERENCE_DIGESTS_H

#include <stddef.h>
#include <stdint.h>

uint64_t reference_digests(uint32_t size, const uint8_t *messages, size_t messages_len,
                           const uint32_t *lengths, size_t lengths_len, uint8_t *out,
                           size_t out_len);

#endif
