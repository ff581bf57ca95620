/*
 * The kit's calls made by the reference. Linked with the probe in place of the archive,
 * they show what the probe has to print.
 */
#include <stdlib.h>
#include <string.h>

#include "edonr.h"
#include "../reference/bits.h"
#include "../reference/digest.h"
#include "../reference/digests.h"
#include "../reference/division.h"
#include "../reference/flips.h"
#include "../reference/product.h"
#include "../reference/replay.h"
#include "../reference/sheet.h"
#include "../reference/shuffle.h"
#include "../reference/step.h"

/* The kit needs no first call, so the probe makes none. */
__attribute__((constructor)) static void prepare(void)
{
    reference_init();
}

uint64_t edonr_product(uint32_t width, const uint8_t *x, size_t x_len, const uint8_t *y,
                       size_t y_len, uint8_t *out, size_t out_len)
{
    return reference_product(width, x, x_len, y, y_len, out, out_len);
}

uint64_t edonr_left_division(uint32_t width, const uint8_t *a, size_t a_len,
                             const uint8_t *b, size_t b_len, uint8_t *out, size_t out_len)
{
    return reference_left_division(width, a, a_len, b, b_len, out, out_len);
}

uint64_t edonr_right_division(uint32_t width, const uint8_t *b, size_t b_len,
                              const uint8_t *a, size_t a_len, uint8_t *out, size_t out_len)
{
    return reference_right_division(width, b, b_len, a, a_len, out, out_len);
}

uint64_t edonr_digest(uint32_t size, const uint8_t *message, size_t message_len,
                      uint8_t *out, size_t out_len)
{
    return reference_digest(size, message, message_len, out, out_len);
}

uint64_t edonr_digests(uint32_t size, const uint8_t *messages, size_t messages_len,
                       const uint32_t *lengths, size_t lengths_len, uint8_t *out,
                       size_t out_len)
{
    return reference_digests(size, messages, messages_len, lengths, lengths_len, out,
                             out_len);
}

uint64_t edonr_run_forward(uint32_t width, uint8_t *vectors, size_t vectors_len,
                           const uint8_t *sheet, size_t sheet_len)
{
    return reference_run_forward(width, vectors, vectors_len, sheet, sheet_len);
}

uint64_t edonr_run_backward(uint32_t width, uint8_t *vectors, size_t vectors_len,
                            const uint8_t *sheet, size_t sheet_len)
{
    return reference_run_backward(width, vectors, vectors_len, sheet, sheet_len);
}

uint64_t edonr_run_slice(uint32_t width, uint8_t *vectors, size_t vectors_len,
                         const uint8_t *sheet, size_t sheet_len, uint32_t offset,
                         uint16_t budget)
{
    return reference_run_slice(width, vectors, vectors_len, sheet, sheet_len, offset,
                               budget);
}

uint64_t edonr_inverse_sheet(uint32_t width, const uint8_t *sheet, size_t sheet_len,
                             uint8_t *out, size_t out_len)
{
    return reference_inverse_sheet(width, sheet, sheet_len, out, out_len);
}

uint64_t edonr_block_forward(uint32_t width, uint8_t *pipe, size_t pipe_len,
                             const uint8_t *block, size_t block_len)
{
    return reference_block_forward(width, pipe, pipe_len, block, block_len);
}

uint64_t edonr_block_backward(uint32_t width, uint8_t *pipe, size_t pipe_len,
                              const uint8_t *block, size_t block_len)
{
    return reference_block_backward(width, pipe, pipe_len, block, block_len);
}

uint64_t edonr_shuffle(uint32_t width, const uint8_t *records, size_t records_len,
                       uint8_t *out, size_t out_len)
{
    return reference_shuffle(width, records, records_len, out, out_len);
}

uint64_t edonr_unshuffle(uint32_t width, const uint8_t *records, size_t records_len,
                         uint8_t *out, size_t out_len)
{
    return reference_unshuffle(width, records, records_len, out, out_len);
}

uint64_t edonr_first_false_record(uint32_t width, const uint8_t *vectors,
                                  size_t vectors_len, const uint8_t *sheet,
                                  size_t sheet_len, const uint8_t *records,
                                  size_t records_len, struct edonr_finding *finding)
{
    return reference_first_false_record(width, vectors, vectors_len, sheet, sheet_len,
                                        records, records_len, (uint64_t *)finding);
}

uint64_t edonr_flipped_bits(const uint8_t *records, size_t records_len, uint16_t *counts,
                            size_t counts_len)
{
    return reference_flipped_bits(records, records_len, counts, counts_len);
}

/*
 * A digest in pieces is that of all bytes fed, in one call. They are kept in one place,
 * which is enough for the probe: it has one hash in progress at a time, opens the sizes
 * that there are and feeds little.
 */
static uint8_t fed[4096];

static uint64_t keep(uint64_t total, const uint8_t *bytes, size_t bytes_len)
{
    if (bytes_len > sizeof fed - total)
        abort();
    memcpy(fed + total, bytes, bytes_len);
    return total + bytes_len;
}

/* The last byte is kept behind the others for the while. */
static uint64_t finish_kept(uint32_t size, uint64_t total, uint8_t last, uint32_t count,
                            uint8_t *out, size_t out_len)
{
    if (count > 7)
        return edonr_refused(EDONR_REFUSED_BIT_COUNT, 0);
    if (out_len < size / 8)
        return edonr_refused(EDONR_REFUSED_OUTPUT, 0);
    keep(total, &last, 1);
    reference_digest_of_bits(size, fed, 8 * total + count, out);
    return size / 8;
}

#define DEFINE_IN_PIECES(kind)                                                             \
    uint64_t edonr_##kind##_open(struct edonr_##kind *hash, uint32_t size)                 \
    {                                                                                      \
        *hash = (struct edonr_##kind){.size = size};                                       \
        return 0;                                                                          \
    }                                                                                      \
                                                                                           \
    uint64_t edonr_##kind##_feed(struct edonr_##kind *hash, const uint8_t *bytes,          \
                                 size_t bytes_len)                                         \
    {                                                                                      \
        hash->total = keep(hash->total, bytes, bytes_len);                                 \
        return hash->total;                                                                \
    }                                                                                      \
                                                                                           \
    uint64_t edonr_##kind##_finish(const struct edonr_##kind *hash, uint8_t *out,          \
                                   size_t out_len)                                         \
    {                                                                                      \
        return reference_digest((uint32_t)hash->size, fed, hash->total, out, out_len);     \
    }                                                                                      \
                                                                                           \
    uint64_t edonr_##kind##_finish_bits(const struct edonr_##kind *hash, uint8_t last,     \
                                        uint32_t count, uint8_t *out, size_t out_len)      \
    {                                                                                      \
        return finish_kept((uint32_t)hash->size, hash->total, last, count, out, out_len);  \
    }

DEFINE_IN_PIECES(narrow)
DEFINE_IN_PIECES(wide)
