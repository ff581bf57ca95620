#include "digest.h"

#include "answer.h"
#include "block.h"

static uint64_t check_digest(uint32_t size, size_t message_len, size_t out_len)
{
    if (size != 224 && size != 256 && size != 384 && size != 512)
        return refuse(BAD_SIZE, 0);
    if (message_len > MOST_BYTES_FED)
        return refuse(MESSAGE_TOO_LONG, 0);
    if (out_len < size / 8)
        return refuse(OUTPUT_TOO_SHORT, 0);
    return size / 8;
}

#define WIDTH 32
#include "digest_width.h"
#undef WIDTH

#define WIDTH 64
#include "digest_width.h"
#undef WIDTH

uint64_t reference_digest_by(const struct variant *variant, uint32_t size,
                             const uint8_t *message, size_t message_len, uint8_t *out,
                             size_t out_len)
{
    uint64_t answer = check_digest(size, message_len, out_len);
    if (is_refusal(answer))
        return answer;
    if (size <= 256)
        digest_32(variant, start_32(size), message, message_len, out, size / 8);
    else
        digest_64(variant, start_64(size), message, message_len, out, size / 8);
    return answer;
}

uint64_t reference_digest(uint32_t size, const uint8_t *message, size_t message_len,
                          uint8_t *out, size_t out_len)
{
    return reference_digest_by(NULL, size, message, message_len, out, out_len);
}
