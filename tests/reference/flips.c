#include "flips.h"

#include "answer.h"

/* In bytes: a digest, a record, which is two of them, and the most records of one call. */
enum { DIGEST = 32, RECORD = 2 * DIGEST, MOST_BYTES = 65536 };

static unsigned bit_of(const uint8_t *digest, unsigned bit)
{
    return digest[bit / 8] >> bit % 8 & 1;
}

/* The bits one by one, the two digests of a record side by side. */
static uint16_t count_flips(const uint8_t *record)
{
    uint16_t flips = 0;
    for (unsigned bit = 0; bit < 8 * DIGEST; bit++)
        if (bit_of(record, bit) != bit_of(record + DIGEST, bit))
            flips++;
    return flips;
}

uint64_t reference_flipped_bits(const uint8_t *records, size_t records_len,
                                uint16_t *counts, size_t counts_len)
{
    size_t count = records_len / RECORD;
    uint64_t sum = 0;
    if (records_len % RECORD != 0 || records_len > MOST_BYTES)
        return refuse(BAD_PAIRS, 0);
    if (counts_len < count)
        return refuse(OUTPUT_TOO_SHORT, 0);
    for (size_t i = 0; i < count; i++) {
        counts[i] = count_flips(records + i * RECORD);
        sum += counts[i];
    }
    return sum;
}
