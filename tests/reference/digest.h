/*
 * The digest in one call: what edonr_digest does, written independently.
 */
#ifndef REFERENCE_DIGEST_H
#define REFERENCE_DIGEST_H

#include <stddef.h>
#include <stdint.h>

#include "variant.h"

uint64_t reference_digest(uint32_t size, const uint8_t *message, size_t message_len,
                          uint8_t *out, size_t out_len);

/* The same, read in another way. */
uint64_t reference_digest_by(const struct variant *variant, uint32_t size,
                             const uint8_t *message, size_t message_len, uint8_t *out,
                             size_t out_len);

#endif
