/*
 * One call of opening, feeding or finishing, made to the archive and to the reference.
 */
#ifndef HARNESS_HASH_CALL_H
#define HARNESS_HASH_CALL_H

#include <stddef.h>
#include <stdint.h>

#include "../reference/hash.h"

enum kind { NARROW, WIDE, KINDS };

extern const char *const kind_names[KINDS];
extern const uint32_t kind_sizes[KINDS][2];

/* A hash in progress, of the kind that goes with it. */
union hash {
    struct hash_32 narrow;
    struct hash_64 wide;
};

/* The most bytes fed at once and the longest output. More bytes are only claimed, for a
   feeding that refuses them. */
enum { HASH_CALL_BYTES = 16 << 20, HASH_CALL_OUT = 512 };

size_t block_len(enum kind kind);

/* Size and total of a hash, which may be of any bytes. */
uint64_t hash_size(enum kind kind, const union hash *hash);
uint64_t hash_total(enum kind kind, const union hash *hash);
void set_hash(enum kind kind, union hash *hash, uint64_t size, uint64_t total);

/* Each counts one comparison: it passes if both give the same answer and leave the same
   bytes, whole structs compared, if the bytes fed and all guards stand, and if a refusal
   leaves every byte as it was. Afterwards *hash is what the archive left. Each returns the
   archive's answer. */
uint64_t check_open_call(enum kind kind, union hash *hash, uint32_t size);
uint64_t check_feed_call(enum kind kind, union hash *hash, const uint8_t *bytes,
                         size_t len);

/* The same of any number of bytes, which are lent where they are and not copied. */
uint64_t check_feed_in_place(enum kind kind, union hash *hash, const uint8_t *bytes,
                             size_t len);

/* The same; the hash has to stand, refused or not. After a success digest holds what the
   archive wrote, if it is not null. A longer output is only claimed, for a call that is
   refused. */
uint64_t check_finish_call(enum kind kind, const union hash *hash, size_t out_len,
                           uint8_t *digest);

/* The same of a finishing with bits: the count highest of the last byte. */
uint64_t check_finish_bits_call(enum kind kind, const union hash *hash, uint8_t last,
                                uint32_t count, size_t out_len, uint8_t *digest);

#endif
