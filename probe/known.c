#include "known.h"

#include <inttypes.h>
#include <stdio.h>
#include <string.h>

#include "edonr.h"
#include "known_table.h"
#include "refusal.h"

/* At either width every piece ends inside a block, so that bytes wait for the next one. */
enum { PIECE = 110 };

/* Opening, as feeding, answers the number of bytes fed so far. A wrong answer ends the work,
   and *expected becomes the right one. */
#define DEFINE_DIGEST_IN_PIECES(kind)                                                      \
    static uint64_t kind##_digest(uint32_t size, const struct known_bytes *message,        \
                                  uint8_t *out, size_t out_len, uint64_t *expected)        \
    {                                                                                      \
        struct edonr_##kind hash;                                                          \
        size_t fed = 0;                                                                    \
        uint64_t answer = edonr_##kind##_open(&hash, size);                                \
        while (answer == fed && fed < message->len) {                                      \
            size_t left = message->len - fed;                                              \
            size_t piece = left < PIECE ? left : PIECE;                                    \
            answer = edonr_##kind##_feed(&hash, message->at + fed, piece);                 \
            fed += piece;                                                                  \
        }                                                                                  \
        if (answer == fed)                                                                 \
            return edonr_##kind##_finish(&hash, out, out_len);                             \
        *expected = fed;                                                                   \
        return answer;                                                                     \
    }

DEFINE_DIGEST_IN_PIECES(narrow)
DEFINE_DIGEST_IN_PIECES(wide)

#undef DEFINE_DIGEST_IN_PIECES

/* The answer, and in out what the call leaves there; where it takes several calls, that of
   the first wrong one, with *expected. */
static uint64_t work_out(const struct known *known, uint8_t *out, size_t out_len,
                         uint64_t *expected)
{
    struct known_bytes first = known_bytes(known->first);
    struct known_bytes second = known_bytes(known->second);
    uint32_t parameter = known->parameter;
    switch (known->call) {
    case KNOWN_PRODUCT:
        return edonr_product(parameter, first.at, first.len, second.at, second.len, out,
                             out_len);
    case KNOWN_LEFT_DIVISION:
        return edonr_left_division(parameter, first.at, first.len, second.at, second.len,
                                   out, out_len);
    case KNOWN_RIGHT_DIVISION:
        return edonr_right_division(parameter, first.at, first.len, second.at, second.len,
                                    out, out_len);
    case KNOWN_DIGEST:
        return edonr_digest(parameter, first.at, first.len, out, out_len);
    case KNOWN_PIECES:
        if (parameter <= 256)
            return narrow_digest(parameter, &first, out, out_len, expected);
        return wide_digest(parameter, &first, out, out_len, expected);
    case KNOWN_FORWARD:
        memcpy(out, first.at, first.len);
        return edonr_run_forward(parameter, out, first.len, second.at, second.len);
    case KNOWN_BACKWARD:
        memcpy(out, first.at, first.len);
        return edonr_run_backward(parameter, out, first.len, second.at, second.len);
    }
    return 0;
}

static void tell_wrong_answer(const struct known *known, uint64_t answer,
                              uint64_t expected)
{
    char text[ANSWER_TEXT];
    answer_text(answer, text, sizeof text);
    fprintf(stderr, "edonr-probe: known answer wrong: %s: answered %s and not %" PRIu64 "\n",
            known->name, text, expected);
}

static void tell_wrong_byte(const struct known *known, const uint8_t *out,
                            const uint8_t *result)
{
    size_t i = 0;
    while (out[i] == result[i])
        i++;
    fprintf(stderr, "edonr-probe: known answer wrong: %s: byte %zu is %02x and not %02x\n",
            known->name, i, out[i], result[i]);
}

static bool is_right(const struct known *known)
{
    struct known_bytes result = known_bytes(known->result);
    uint8_t out[KNOWN_MOST_BYTES] = {0};
    uint64_t expected = known->answer;
    uint64_t answer = work_out(known, out, result.len, &expected);
    if (answer != expected)
        tell_wrong_answer(known, answer, expected);
    else if (memcmp(out, result.at, result.len) != 0)
        tell_wrong_byte(known, out, result.at);
    else
        return true;
    return false;
}

bool known_check(void)
{
    unsigned wrong = 0;
    for (unsigned i = 0; i < KNOWN_ANSWERS; i++)
        wrong += !is_right(&known_table[i]);
    if (wrong == 0)
        return true;
    fprintf(stderr, "edonr-probe: %u of %u known answers are wrong: not setting out\n",
            wrong, (unsigned)KNOWN_ANSWERS);
    return false;
}
