/*
 * A hash in progress, of either kind: what opening, feeding and finishing do to a struct
 * of any bytes, written independently. The structs are written here again, and not taken
 * from the kit's header: memory that the archive left is compared with them whole.
 *
 * A finishing with bits, document 02, Paper 7, goes by bit strings (bits.h), and shares no
 * padding with the finishing of document 01.
 */
#ifndef REFERENCE_HASH_H
#define REFERENCE_HASH_H

#include <stddef.h>
#include <stdint.h>

struct hash_32 {
    uint64_t size; /* 224 or 256 */
    uint32_t pipe[16];
    uint8_t waiting[64];
    uint64_t total;
};

struct hash_64 {
    uint64_t size; /* 384 or 512 */
    uint64_t pipe[16];
    uint8_t waiting[128];
    uint64_t total;
};

_Static_assert(sizeof(struct hash_32) == 8 + 64 + 64 + 8 &&
                   sizeof(struct hash_64) == 8 + 128 + 128 + 8,
               "no byte of a struct is outside its fields");

uint64_t reference_open_32(struct hash_32 *hash, uint32_t size);
uint64_t reference_feed_32(struct hash_32 *hash, const uint8_t *bytes, size_t len);
uint64_t reference_finish_32(const struct hash_32 *hash, uint8_t *out, size_t out_len);
uint64_t reference_finish_bits_32(const struct hash_32 *hash, uint8_t last, uint32_t count,
                                  uint8_t *out, size_t out_len);

uint64_t reference_open_64(struct hash_64 *hash, uint32_t size);
uint64_t reference_feed_64(struct hash_64 *hash, const uint8_t *bytes, size_t len);
uint64_t reference_finish_64(const struct hash_64 *hash, uint8_t *out, size_t out_len);
uint64_t reference_finish_bits_64(const struct hash_64 *hash, uint8_t last, uint32_t count,
                                  uint8_t *out, size_t out_len);

#endif
