#include "hash_call.h"

#include <inttypes.h>
#include <stdbool.h>
#include <string.h>

#include "../reference/answer.h"
#include "check.h"
#include "edonr.h"
#include "lent.h"
#include "random.h"

const char *const kind_names[KINDS] = {"narrow", "wide"};
const uint32_t kind_sizes[KINDS][2] = {{224, 256}, {384, 512}};

_Static_assert(sizeof(struct edonr_narrow) == sizeof(struct hash_32) &&
                   sizeof(struct edonr_wide) == sizeof(struct hash_64),
               "the header's structs have the length that the reference gives them");

static struct lent lent_hash, lent_bytes, lent_out;

size_t block_len(enum kind kind)
{
    return kind == NARROW ? 64 : 128;
}

static size_t hash_len(enum kind kind)
{
    return kind == NARROW ? sizeof(struct hash_32) : sizeof(struct hash_64);
}

uint64_t hash_size(enum kind kind, const union hash *hash)
{
    return kind == NARROW ? hash->narrow.size : hash->wide.size;
}

uint64_t hash_total(enum kind kind, const union hash *hash)
{
    return kind == NARROW ? hash->narrow.total : hash->wide.total;
}

void set_hash(enum kind kind, union hash *hash, uint64_t size, uint64_t total)
{
    if (kind == NARROW) {
        hash->narrow.size = size;
        hash->narrow.total = total;
    } else {
        hash->wide.size = size;
        hash->wide.total = total;
    }
}

static void prepare_areas(void)
{
    if (lent_hash.area != NULL)
        return;
    lent_hash = lent_area(sizeof(union hash), _Alignof(union hash));
    lent_bytes = lent_area(HASH_CALL_BYTES, 1);
    lent_out = lent_area(HASH_CALL_OUT, 1);
}

static void *place_hash(enum kind kind, const union hash *hash)
{
    prepare_areas();
    lent_place(&lent_hash, (const uint8_t *)hash, hash_len(kind));
    return lent_hash.bytes;
}

/* Whether the lent struct is, byte by byte, this hash; *left becomes what it is. */
static bool take_hash(enum kind kind, const union hash *want, union hash *left)
{
    bool same = lent_holds(&lent_hash, (const uint8_t *)want);
    memcpy(left, lent_hash.bytes, hash_len(kind));
    return same;
}

static bool same_hash(enum kind kind, const union hash *a, const union hash *b)
{
    return memcmp(a, b, hash_len(kind)) == 0;
}

uint64_t check_open_call(enum kind kind, union hash *hash, uint32_t size)
{
    union hash want_hash = *hash, before = *hash;
    void *lent = place_hash(kind, hash);
    uint64_t want = kind == NARROW ? reference_open_32(&want_hash.narrow, size)
                                   : reference_open_64(&want_hash.wide, size);
    uint64_t got =
        kind == NARROW ? edonr_narrow_open(lent, size) : edonr_wide_open(lent, size);
    bool frame = !is_refusal(want) || same_hash(kind, &want_hash, &before);
    bool same = take_hash(kind, &want_hash, hash);
    check(got == want && frame && same,
          "%s, opened with %" PRIu32 ": answered %" PRIx64 ", expected %" PRIx64 "%s",
          kind_names[kind], size, got, want, same ? "" : "; another struct");
    return got;
}

/* fed is what is lent: a copy of bytes in lent_bytes, or bytes themselves. */
static uint64_t check_feed(enum kind kind, union hash *hash, const uint8_t *bytes,
                           size_t len, const uint8_t *fed)
{
    union hash want_hash = *hash, before = *hash;
    void *lent = place_hash(kind, hash);
    uint64_t want = kind == NARROW ? reference_feed_32(&want_hash.narrow, bytes, len)
                                   : reference_feed_64(&want_hash.wide, bytes, len);
    uint64_t got = kind == NARROW ? edonr_narrow_feed(lent, fed, len)
                                  : edonr_wide_feed(lent, fed, len);
    bool frame = (!is_marked_refusal(want) || same_hash(kind, &want_hash, &before)) &&
                 (fed == bytes || lent_holds(&lent_bytes, bytes));
    bool same = take_hash(kind, &want_hash, hash);
    check(got == want && frame && same,
          "%s, size %" PRIx64 ", total %" PRIx64 ", fed %zu: answered %" PRIx64
          ", expected %" PRIx64 "%s",
          kind_names[kind], hash_size(kind, &before), hash_total(kind, &before), len, got,
          want, same ? "" : "; another struct");
    return got;
}

uint64_t check_feed_call(enum kind kind, union hash *hash, const uint8_t *bytes, size_t len)
{
    prepare_areas();
    lent_place(&lent_bytes, bytes, len);
    return check_feed(kind, hash, bytes, len, lent_bytes.bytes);
}

uint64_t check_feed_in_place(enum kind kind, union hash *hash, const uint8_t *bytes,
                             size_t len)
{
    return check_feed(kind, hash, bytes, len, bytes);
}

/* What a finishing with bits is given. Null stands for the finishing without. */
struct last_bits {
    uint8_t last;
    uint32_t count;
};

static uint64_t finish_by_reference(enum kind kind, const union hash *hash,
                                    const struct last_bits *bits, uint8_t *out,
                                    size_t out_len)
{
    if (bits == NULL)
        return kind == NARROW ? reference_finish_32(&hash->narrow, out, out_len)
                              : reference_finish_64(&hash->wide, out, out_len);
    return kind == NARROW ? reference_finish_bits_32(&hash->narrow, bits->last, bits->count,
                                                     out, out_len)
                          : reference_finish_bits_64(&hash->wide, bits->last, bits->count,
                                                     out, out_len);
}

static uint64_t finish_by_archive(enum kind kind, const void *hash,
                                  const struct last_bits *bits, uint8_t *out,
                                  size_t out_len)
{
    if (bits == NULL)
        return kind == NARROW ? edonr_narrow_finish(hash, out, out_len)
                              : edonr_wide_finish(hash, out, out_len);
    return kind == NARROW
               ? edonr_narrow_finish_bits(hash, bits->last, bits->count, out, out_len)
               : edonr_wide_finish_bits(hash, bits->last, bits->count, out, out_len);
}

static uint64_t check_finishing(enum kind kind, const union hash *hash,
                                const struct last_bits *bits, size_t out_len,
                                uint8_t *digest)
{
    uint8_t before[HASH_CALL_OUT], after[HASH_CALL_OUT];
    union hash left;
    size_t held = out_len <= HASH_CALL_OUT ? out_len : 0;
    random_fill(before, held);
    memcpy(after, before, held);
    const void *lent = place_hash(kind, hash);
    lent_place(&lent_out, before, out_len);
    uint64_t want = finish_by_reference(kind, hash, bits, after, out_len);
    uint64_t got = finish_by_archive(kind, lent, bits, lent_out.bytes, out_len);
    size_t written = is_refusal(want) ? 0 : (size_t)want;
    bool frame = memcmp(after + written, before + written, held - written) == 0;
    bool same = lent_holds(&lent_out, after);
    check(got == want && frame && same && take_hash(kind, hash, &left),
          "%s, size %" PRIx64 ", total %" PRIx64 ", last byte %x, bits %" PRIx32
          ", output of %zu: answered %" PRIx64 ", expected %" PRIx64 "%s",
          kind_names[kind], hash_size(kind, hash), hash_total(kind, hash),
          bits == NULL ? 0u : bits->last, bits == NULL ? 0 : bits->count, out_len, got,
          want, same ? "" : "; another output");
    if (digest != NULL && written > 0)
        memcpy(digest, lent_out.bytes, written);
    return got;
}

uint64_t check_finish_call(enum kind kind, const union hash *hash, size_t out_len,
                           uint8_t *digest)
{
    return check_finishing(kind, hash, NULL, out_len, digest);
}

uint64_t check_finish_bits_call(enum kind kind, const union hash *hash, uint8_t last,
                                uint32_t count, size_t out_len, uint8_t *digest)
{
    struct last_bits bits = {last, count};
    return check_finishing(kind, hash, &bits, out_len, digest);
}
