/*
 * Messages as strings of single bits, and their digests bit by bit, written independently
 * from document 001, section 1.4.1, and document 02, Paper 7. Nothing here is in bytes
 * before the padded message is packed.
 */
#ifndef REFERENCE_BITS_H
#define REFERENCE_BITS_H

#include <stddef.h>
#include <stdint.h>

/* The most bits of a message whose digest is worked out here whole. */
enum { MOST_MESSAGE_BITS = 1 << 17 };

/* A string of bits, 0 or 1 each, in an array that has room for what is appended. */
struct bits {
    uint8_t *at;
    size_t len;
};

/* Appends the first bits of some bytes. The first bit of a byte is its highest. */
void append_bits(struct bits *bits, const uint8_t *bytes, size_t count);

/* Appends what stands behind a message of so many bits: a single one, the fewest zeros that
   leave 64 bits to the end of a block, and the number of bits in 8 bytes, lowest first. */
void append_padding(struct bits *bits, size_t block_bits, uint64_t message_bits);

/* Eight bits to a byte, the first its highest. The string is one of whole bytes. */
void pack_bits(const struct bits *bits, uint8_t *bytes);

/* The digest of size bits of the first bits of some bytes, at most MOST_MESSAGE_BITS. The
   size is one of the four. */
void reference_digest_of_bits(uint32_t size, const uint8_t *message, size_t message_bits,
                              uint8_t *digest);

#endif
