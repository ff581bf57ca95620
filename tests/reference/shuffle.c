#include "shuffle.h"

#include "answer.h"

/* Words of one record: eight vectors of eight words. */
enum { WORDS = 8 * 8 };

/* In line, so that the length of a word is known to the compiler where it unrolls the loops
   over one record; otherwise they are no measure for a benchmark. */
#define IN_LINE static inline __attribute__((always_inline))

/* Written from the front to the end: the lowest byte of every word, in word order, then the
   next byte of every word, up to the highest. */
IN_LINE void shuffle_record(size_t word_len, const uint8_t *restrict record,
                            uint8_t *restrict out)
{
    for (size_t byte = 0; byte < word_len; byte++)
        for (size_t word = 0; word < WORDS; word++)
            out[byte * WORDS + word] = record[word * word_len + byte];
}

/* Written from the front to the end as well: every word, its lowest byte first. */
IN_LINE void unshuffle_record(size_t word_len, const uint8_t *restrict record,
                              uint8_t *restrict out)
{
    for (size_t word = 0; word < WORDS; word++)
        for (size_t byte = 0; byte < word_len; byte++)
            out[word * word_len + byte] = record[byte * WORDS + word];
}

#define DEFINE_OF_RECORDS(name, of_record, word_len)                                       \
    static void name(const uint8_t *restrict records, size_t len, uint8_t *restrict out)   \
    {                                                                                      \
        for (size_t at = 0; at < len; at += WORDS * word_len)                              \
            of_record(word_len, records + at, out + at);                                   \
    }

DEFINE_OF_RECORDS(shuffle_32, shuffle_record, 4)
DEFINE_OF_RECORDS(shuffle_64, shuffle_record, 8)
DEFINE_OF_RECORDS(unshuffle_32, unshuffle_record, 4)
DEFINE_OF_RECORDS(unshuffle_64, unshuffle_record, 8)

/* The length that is written, or the refusal. */
static uint64_t check_records(uint32_t width, size_t records_len, size_t out_len)
{
    if (width != 32 && width != 64)
        return refuse_marked(BAD_WIDTH);
    if (records_len % (8 * width) != 0)
        return refuse_marked(BAD_RECORDS);
    if (out_len < records_len)
        return refuse_marked(OUTPUT_TOO_SHORT);
    return records_len;
}

uint64_t reference_shuffle(uint32_t width, const uint8_t *records, size_t records_len,
                           uint8_t *out, size_t out_len)
{
    uint64_t answer = check_records(width, records_len, out_len);
    if (is_marked_refusal(answer))
        return answer;
    if (width == 32)
        shuffle_32(records, records_len, out);
    else
        shuffle_64(records, records_len, out);
    return answer;
}

uint64_t reference_unshuffle(uint32_t width, const uint8_t *records, size_t records_len,
                             uint8_t *out, size_t out_len)
{
    uint64_t answer = check_records(width, records_len, out_len);
    if (is_marked_refusal(answer))
        return answer;
    if (width == 32)
        unshuffle_32(records, records_len, out);
    else
        unshuffle_64(records, records_len, out);
    return answer;
}
