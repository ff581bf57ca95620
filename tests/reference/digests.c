#include "digests.h"

#include "answer.h"
#include "digest.h"

enum { MOST_MESSAGES = 1024 };

/* So few lengths of 32 bits stay far below 2^64. */
static uint64_t sum_of(const uint32_t *lengths, size_t count)
{
    uint64_t sum = 0;
    for (size_t k = 0; k < count; k++)
        sum += lengths[k];
    return sum;
}

static uint64_t check_digests(uint32_t size, size_t messages_len, const uint32_t *lengths,
                              size_t lengths_len, size_t out_len)
{
    if (size != 224 && size != 256 && size != 384 && size != 512)
        return refuse(BAD_SIZE, 0);
    if (lengths_len > MOST_MESSAGES)
        return refuse(TOO_MANY_MESSAGES, 0);
    if (sum_of(lengths, lengths_len) != messages_len)
        return refuse(BAD_JOINED_LENGTH, 0);
    if (out_len < lengths_len * (size / 8))
        return refuse(OUTPUT_TOO_SHORT, 0);
    return lengths_len * (size / 8);
}

uint64_t reference_digests(uint32_t size, const uint8_t *messages, size_t messages_len,
                           const uint32_t *lengths, size_t lengths_len, uint8_t *out,
                           size_t out_len)
{
    uint64_t answer = check_digests(size, messages_len, lengths, lengths_len, out_len);
    if (is_refusal(answer))
        return answer;
    size_t digest_len = size / 8, start = 0;
    for (size_t k = 0; k < lengths_len; k++) {
        reference_digest(size, messages + start, lengths[k], out + k * digest_len,
                         digest_len);
        start += lengths[k];
    }
    return answer;
}
