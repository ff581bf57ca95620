/*
 * The kit's calls with one fault, which the environment chooses: EDONR_FAULT is a call,
 * its width or size, and what goes wrong there, as in "product 32 bytes". The linker's
 * --wrap puts them around the calls that the probe makes; where nothing is chosen they
 * change nothing.
 *
 *   bytes    one bit of the result is wrong; of a feeding, one bit of what is fed
 *   answer   the answer is wrong by one
 *   refused  the answer is refusal 2
 *   marked   the same, marked
 *   idle     of the call "run": both runs answer right and move nothing
 */
#include <stdbool.h>
#include <stdio.h>
#include <stdlib.h>
#include <string.h>

#include "edonr.h"

enum { MOST_VECTORS_BYTES = EDONR_PLACES * 64, MOST_FED_BYTES = 256 };

static bool is_chosen(const char *call, uint64_t parameter, const char *way)
{
    char text[80];
    const char *fault = getenv("EDONR_FAULT");
    snprintf(text, sizeof text, "%s %u %s", call, (unsigned)parameter, way);
    return fault != NULL && strcmp(fault, text) == 0;
}

static uint64_t corrupt_answer(const char *call, uint64_t parameter, uint64_t answer)
{
    if (is_chosen(call, parameter, "refused"))
        return edonr_refused(EDONR_REFUSED_STATE, 0);
    if (is_chosen(call, parameter, "marked"))
        return EDONR_MARK + edonr_refused(EDONR_REFUSED_STATE, 0);
    return is_chosen(call, parameter, "answer") ? answer + 1 : answer;
}

static uint64_t corrupt(const char *call, uint64_t parameter, uint8_t *last_byte,
                        uint64_t answer)
{
    if (is_chosen(call, parameter, "bytes"))
        *last_byte ^= 0x80;
    return corrupt_answer(call, parameter, answer);
}

#define DEFINE_OPERATION(name)                                                             \
    uint64_t __real_edonr_##name(uint32_t, const uint8_t *, size_t, const uint8_t *,       \
                                 size_t, uint8_t *, size_t);                               \
    uint64_t __wrap_edonr_##name(uint32_t width, const uint8_t *first, size_t first_len,   \
                                 const uint8_t *second, size_t second_len, uint8_t *out,   \
                                 size_t out_len)                                           \
    {                                                                                      \
        uint64_t answer = __real_edonr_##name(width, first, first_len, second, second_len, \
                                              out, out_len);                               \
        return corrupt(#name, width, out + width - 1, answer);                             \
    }

DEFINE_OPERATION(product)
DEFINE_OPERATION(left_division)
DEFINE_OPERATION(right_division)

uint64_t __real_edonr_digest(uint32_t, const uint8_t *, size_t, uint8_t *, size_t);
uint64_t __wrap_edonr_digest(uint32_t size, const uint8_t *message, size_t message_len,
                             uint8_t *out, size_t out_len)
{
    uint64_t answer = __real_edonr_digest(size, message, message_len, out, out_len);
    return corrupt("digest", size, out + size / 8 - 1, answer);
}

#define DEFINE_RUN(name)                                                                   \
    uint64_t __real_edonr_##name(uint32_t, uint8_t *, size_t, const uint8_t *, size_t);    \
    uint64_t __wrap_edonr_##name(uint32_t width, uint8_t *vectors, size_t vectors_len,     \
                                 const uint8_t *sheet, size_t sheet_len)                   \
    {                                                                                      \
        uint8_t before[MOST_VECTORS_BYTES];                                                \
        memcpy(before, vectors, vectors_len);                                              \
        uint64_t answer =                                                                  \
            __real_edonr_##name(width, vectors, vectors_len, sheet, sheet_len);            \
        if (is_chosen("run", width, "idle"))                                               \
            memcpy(vectors, before, vectors_len);                                          \
        return corrupt(#name, width, vectors + vectors_len - 1, answer);                   \
    }

DEFINE_RUN(run_forward)
DEFINE_RUN(run_backward)

#define DEFINE_IN_PIECES(kind)                                                             \
    uint64_t __real_edonr_##kind##_open(struct edonr_##kind *, uint32_t);                  \
    uint64_t __wrap_edonr_##kind##_open(struct edonr_##kind *hash, uint32_t size)          \
    {                                                                                      \
        return corrupt_answer("open", size, __real_edonr_##kind##_open(hash, size));       \
    }                                                                                      \
                                                                                           \
    uint64_t __real_edonr_##kind##_feed(struct edonr_##kind *, const uint8_t *, size_t);   \
    uint64_t __wrap_edonr_##kind##_feed(struct edonr_##kind *hash, const uint8_t *bytes,   \
                                        size_t bytes_len)                                  \
    {                                                                                      \
        uint8_t fed[MOST_FED_BYTES];                                                       \
        memcpy(fed, bytes, bytes_len);                                                     \
        if (is_chosen("feed", hash->size, "bytes"))                                        \
            fed[0] ^= 0x80;                                                                \
        uint64_t answer = __real_edonr_##kind##_feed(hash, fed, bytes_len);                \
        return corrupt_answer("feed", hash->size, answer);                                 \
    }                                                                                      \
                                                                                           \
    uint64_t __real_edonr_##kind##_finish(const struct edonr_##kind *, uint8_t *, size_t); \
    uint64_t __wrap_edonr_##kind##_finish(const struct edonr_##kind *hash, uint8_t *out,   \
                                          size_t out_len)                                  \
    {                                                                                      \
        uint64_t answer = __real_edonr_##kind##_finish(hash, out, out_len);                \
        return corrupt("finish", hash->size, out + hash->size / 8 - 1, answer);            \
    }

DEFINE_IN_PIECES(narrow)
DEFINE_IN_PIECES(wide)
