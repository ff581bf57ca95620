/*
 * The archive's digest in one call against the reference, bit for bit.
 */
#include <inttypes.h>
#include <stdlib.h>
#include <string.h>

#include "edonr.h"
#include "harness/check.h"
#include "harness/digest_call.h"
#include "harness/random.h"

enum {
    SHORT = 1200,
    EVERY_LENGTH = 8200,
    MIDDLE_MESSAGES = 1000,
    LONG_MESSAGES = 10,
    EVERY_SIZE = 1100
};

static const uint32_t sizes[4] = {224, 256, 384, 512};
static uint8_t message[DIGEST_CALL_MESSAGE];

static void compare_message(uint32_t size, size_t len, size_t out_len)
{
    random_fill(message, len);
    check_digest_call(size, message, len, out_len);
}

/* Three rounds of the shorter ones, so that each meets each position of the buffers. */
static void compare_every_length(uint32_t size)
{
    check_group("messages of 0 to %d bytes, size %" PRIu32, EVERY_LENGTH, size);
    for (unsigned round = 0; round < 3; round++)
        for (size_t len = 0; len <= (round == 0 ? EVERY_LENGTH : SHORT); len++)
            compare_message(size, len, size / 8 + (len + round) % 9);
}

/* Uniform messages: a block's place in the message shows in the length and pipe alone. */
static void compare_uniform(uint32_t size)
{
    static const uint8_t fills[] = {0x00, 0x80, 0xFF};
    check_group("uniform messages, size %" PRIu32, size);
    for (unsigned i = 0; i < sizeof fills; i++) {
        memset(message, fills[i], 300);
        for (size_t len = 0; len <= 300; len++)
            check_digest_call(size, message, len, size / 8);
    }
}

/* Lengths of up to 17 bits, each number of bits as often as another. */
static void compare_middle(uint32_t size)
{
    check_group("messages of up to 2^17 bytes, size %" PRIu32, size);
    for (unsigned i = 0; i < MIDDLE_MESSAGES; i++)
        compare_message(size, (size_t)random_bits(17), size / 8 + random_below(20));
}

/* Around each power of two from 1 MiB, and at random up to the most that is lent. */
static void compare_long(uint32_t size)
{
    check_group("messages of 1 to 16 MiB, size %" PRIu32, size);
    for (size_t power = 1 << 20; power < DIGEST_CALL_MESSAGE; power *= 2)
        for (size_t len = power - 1; len <= power + 1; len++)
            compare_message(size, len, size / 8);
    for (unsigned i = 0; i < LONG_MESSAGES; i++) {
        size_t most = DIGEST_CALL_MESSAGE >> i % 4;
        compare_message(size, most / 2 + random_below(most / 2 + 1), size / 8);
    }
}

static void compare_outputs(uint32_t size)
{
    static const size_t lengths[] = {0, 1, 55, 56, 64, 119, 120, 128, 500};
    check_group("output lengths, size %" PRIu32, size);
    for (unsigned i = 0; i < sizeof lengths / sizeof lengths[0]; i++)
        for (size_t out_len = 0; out_len <= size / 8 + 8; out_len++)
            compare_message(size, lengths[i], out_len);
}

static void compare_size(uint32_t size)
{
    for (size_t out_len = 0; out_len <= 72; out_len++)
        compare_message(size, out_len % 3 * 100, out_len);
}

static void compare_nonsense_sizes(void)
{
    check_group("nonsense sizes, and every size to %d", EVERY_SIZE);
    for (uint32_t size = 0; size <= EVERY_SIZE; size++)
        compare_size(size);
    for (unsigned i = 0; i < 4; i++)
        for (unsigned bit = 0; bit < 32; bit++)
            compare_size(sizes[i] ^ 1u << bit);
    compare_size(UINT32_MAX);
    for (unsigned i = 0; i < 100; i++)
        compare_size((uint32_t)random_bits(32));
}

struct point {
    uint32_t size;
    uint64_t message_len;
    size_t out_len;
    uint64_t answer;
};

#define OVER ((uint64_t)1 << 61)
#define REFUSED(number) ((uint64_t)(number) << 32)

/*
 * The order of refusals as numbers, without the reference. No machine can lend 2^61 bytes,
 * so a length alone is claimed there; each such point is refused, and a refusal reads no
 * byte of a message.
 */
static const struct point points[] = {
    {0, 0, 0, REFUSED(1)},
    {225, 3, 64, REFUSED(1)},
    {0, OVER, 0, REFUSED(1)},
    {384, OVER, 0, REFUSED(3)},
    {512, OVER, 64, REFUSED(3)},
    {224, UINT64_MAX, 64, REFUSED(3)},
    {256, UINT64_MAX, 0, REFUSED(3)},
    {256, OVER - 1, 31, REFUSED(4)},
    {512, OVER - 1, 0, REFUSED(4)},
    {224, 3, 27, REFUSED(4)},
    {256, 3, 31, REFUSED(4)},
    {384, 3, 47, REFUSED(4)},
    {512, 3, 63, REFUSED(4)},
    {224, 3, 28, 28},
    {256, 3, 64, 32},
    {384, 3, 48, 48},
    {512, 3, 64, 64},
    {224, 0, 64, 28},
};

static void check_points(void)
{
    check_group("answers as numbers");
    for (unsigned i = 0; i < sizeof points / sizeof points[0]; i++) {
        const struct point *p = &points[i];
        uint64_t got = check_digest_call(p->size, (const uint8_t *)"abc",
                                         (size_t)p->message_len, p->out_len);
        check(got == p->answer, "point %u: answered %" PRIx64, i, got);
    }
    check(EDONR_REFUSED_SIZE == 1 && EDONR_REFUSED_MESSAGE == 3 &&
              EDONR_REFUSED_OUTPUT == 4,
          "the header's numbers");
}

/* The digest that README gives, so that its readers know which EDON-R this is. */
static void check_abc(void)
{
    static const uint8_t want[32] = {
        0x56, 0xd7, 0x89, 0xf3, 0xa0, 0x28, 0xbf, 0x3e, 0x86, 0xa8, 0x18,
        0xa4, 0xe7, 0x71, 0xdf, 0x43, 0xf0, 0xeb, 0xde, 0xa3, 0x73, 0x7d,
        0x1f, 0x4d, 0x56, 0x09, 0xed, 0x7d, 0x2f, 0xf3, 0xa5, 0x2d,
    };
    uint8_t got[32] = {0};
    check_group("the digest of abc");
    edonr_digest(256, (const uint8_t *)"abc", 3, got, sizeof got);
    check(memcmp(got, want, sizeof want) == 0, "another digest");
    check_digest_call(256, (const uint8_t *)"abc", 3, sizeof got);
}

int main(int argc, char **argv)
{
    check_program("compare_digest", argc, argv);
    for (unsigned i = 0; i < 4; i++) {
        compare_every_length(sizes[i]);
        compare_uniform(sizes[i]);
        compare_middle(sizes[i]);
        compare_long(sizes[i]);
        compare_outputs(sizes[i]);
    }
    compare_nonsense_sizes();
    check_points();
    check_abc();
    return check_finish();
}
