/*
 * The digests of many messages in one call by the archive against the reference, and
 * against the archive's own digests of the messages one by one.
 */
#include <inttypes.h>
#include <stdbool.h>
#include <string.h>

#include "edonr.h"
#include "harness/check.h"
#include "harness/digests_call.h"
#include "harness/random.h"
#include "reference/answer.h"

enum {
    RANDOM_CALLS = 60000,
    EVERY_LENGTH = 300, /* bytes of a message */
    FEW = 40,           /* messages of a list */
    EVERY_SIZE = 1100,
    LONG_LISTS = 40,
    LONG_MESSAGES = 8, /* of a list, at most 2^17 bytes each */
    AMONG_EMPTY = 24,
    MOST_BEHIND = 70 /* bytes of an output behind the digests */
};

#define AT_32 ((uint64_t)1 << 32)
#define REFUSED(number) ((uint64_t)(number) << 32)

static const uint32_t sizes[4] = {224, 256, 384, 512};

/* What is lent: the joined messages and the list of their lengths. */
static uint8_t messages[DIGESTS_CALL_MESSAGES];
static uint32_t lengths[DIGESTS_CALL_LENGTHS];

/* ---------------- lengths of messages ---------------- */

/* Around the blocks of either kind, and where the padding takes one block more: there the
   last block has no room for the length of 8 bytes and the single bit. */
static const uint32_t edges[] = {
    0,   1,   54,  55,  56,  57,  63,  64,  65,  118, 119, 120, 121, 127, 128,
    129, 183, 184, 191, 192, 193, 246, 247, 248, 249, 255, 256, 257, 300,
};

enum { EDGES = sizeof edges / sizeof edges[0] };

/* How the lengths of a list are chosen. */
enum manner { EQUAL, MIXED, AT_EDGES, SHORT, MANY_EMPTY, ALL_EMPTY, MANNERS };

static uint32_t choose_length(enum manner manner, uint32_t same)
{
    uint32_t any = (uint32_t)random_below(EVERY_LENGTH + 1);
    switch (manner) {
    case EQUAL: return same;
    case MIXED: return any;
    case AT_EDGES: return edges[any % EDGES];
    case SHORT: return any % 17;
    case MANY_EMPTY: return random_below(8) == 0 ? any : 0;
    default: return 0;
    }
}

static void make_lengths(enum manner manner, size_t count)
{
    uint32_t same = (uint32_t)random_below(EVERY_LENGTH + 1);
    for (size_t k = 0; k < count; k++)
        lengths[k] = choose_length(manner, same);
}

static uint64_t sum_of(size_t count)
{
    uint64_t sum = 0;
    for (size_t k = 0; k < count; k++)
        sum += lengths[k];
    return sum;
}

/* The call of the first lengths, with as many joined bytes as they sum to. */
static struct digests call_of(uint32_t size, size_t count, size_t out_len)
{
    return (struct digests){size, messages, (size_t)sum_of(count), lengths, count, out_len};
}

/* ---------------- lists that are accepted ---------------- */

/* A call for each message, which may write from the place of its digest on. */
static void check_one_by_one(const struct digests *d, const uint8_t *written)
{
    static uint8_t alone[DIGESTS_CALL_OUT];
    size_t digest_len = d->size / 8, len = d->lengths_len * digest_len, start = 0;
    uint64_t made = 0;
    for (size_t k = 0; k < d->lengths_len; k++) {
        size_t at = k * digest_len;
        made += edonr_digest(d->size, messages + start, lengths[k], alone + at, len - at);
        start += lengths[k];
    }
    check(made == len && memcmp(alone, written, len) == 0,
          "size %" PRIu32 ", %zu messages: other digests than one by one", d->size,
          d->lengths_len);
}

/* The first lengths as they stand, with bytes of the output behind their digests. */
static void check_list(uint32_t size, size_t count, size_t behind)
{
    static uint8_t written[DIGESTS_CALL_OUT];
    size_t len = count * (size / 8);
    struct digests d = call_of(size, count, len + behind);
    random_pattern(messages, d.messages_len);
    uint64_t got = check_digests_call(&d, written);
    check(got == len, "size %" PRIu32 ", %zu messages: answered %" PRIx64, size, count,
          got);
    check_one_by_one(&d, written);
}

/* More lengths than the most, where all else is right. */
static void check_too_many(uint32_t size, size_t count)
{
    struct digests d = call_of(size, count, count * (size / 8));
    uint64_t got = check_digests_call(&d, NULL);
    check(got == REFUSED(12), "size %" PRIu32 ", %zu messages: answered %" PRIx64, size,
          count, got);
}

/* Few messages and around the most in every manner, and each number of them in one. */
static void compare_counts(uint32_t size)
{
    check_group("lists of 0 to %d messages, size %" PRIu32, MOST_MESSAGES + 1, size);
    for (enum manner manner = EQUAL; manner < MANNERS; manner++) {
        make_lengths(manner, MOST_MESSAGES + 1);
        for (size_t count = 0; count <= FEW; count++)
            check_list(size, count, (size_t)random_below(MOST_BEHIND));
        for (size_t count = MOST_MESSAGES - 2; count <= MOST_MESSAGES; count++)
            check_list(size, count, count % 3);
        check_too_many(size, MOST_MESSAGES + 1);
    }
    for (size_t count = FEW + 1; count < MOST_MESSAGES - 2; count++) {
        make_lengths((enum manner)(count % MANNERS), count);
        check_list(size, count, (size_t)random_below(MOST_BEHIND));
    }
}

/* One message of each length, by rising and by falling length, and three of one. */
static void compare_lengths(uint32_t size)
{
    check_group("messages of 0 to %d bytes, size %" PRIu32, EVERY_LENGTH, size);
    for (uint32_t k = 0; k <= EVERY_LENGTH; k++)
        lengths[k] = k;
    check_list(size, EVERY_LENGTH + 1, 0);
    for (uint32_t k = 0; k <= EVERY_LENGTH; k++)
        lengths[k] = EVERY_LENGTH - k;
    check_list(size, EVERY_LENGTH + 1, 0);
    for (uint32_t len = 0; len <= EVERY_LENGTH; len++) {
        lengths[0] = lengths[1] = lengths[2] = len;
        check_list(size, 1, len % MOST_BEHIND);
        check_list(size, 3, len % MOST_BEHIND);
    }
}

/* Every two lengths of these next to each other, in either order. */
static void compare_edges(uint32_t size)
{
    check_group("messages around the block's length, size %" PRIu32, size);
    for (unsigned i = 0; i < EDGES * EDGES; i++) {
        lengths[0] = lengths[2] = edges[i / EDGES];
        lengths[1] = edges[i % EDGES];
        check_list(size, 3, i % MOST_BEHIND);
    }
}

/* One message, or two, among empty ones, at every place. */
static void compare_empty(uint32_t size)
{
    check_group("messages among empty ones, size %" PRIu32, size);
    for (size_t i = 0; i < AMONG_EMPTY * AMONG_EMPTY; i++) {
        memset(lengths, 0, sizeof lengths);
        lengths[i / AMONG_EMPTY] = 1 + (uint32_t)random_below(EVERY_LENGTH);
        lengths[i % AMONG_EMPTY] = 1 + (uint32_t)random_below(EVERY_LENGTH);
        check_list(size, AMONG_EMPTY, 0);
    }
    for (size_t k = 0; k < MOST_MESSAGES; k += MOST_MESSAGES - 1) {
        memset(lengths, 0, sizeof lengths);
        lengths[k] = 100;
        check_list(size, MOST_MESSAGES, 0);
    }
}

/* Lengths of up to 17 bits, each number of bits as often as another; around 2^16; and one
   message of all bytes that are lent. */
static void compare_long(uint32_t size)
{
    static const uint32_t around[] = {65535, 65536, 0, 65537, 3, 131072, 65536};
    check_group("long messages, size %" PRIu32, size);
    for (unsigned i = 0; i < LONG_LISTS; i++) {
        for (size_t k = 0; k < LONG_MESSAGES; k++)
            lengths[k] = (uint32_t)random_bits(17);
        check_list(size, LONG_MESSAGES, i);
    }
    memcpy(lengths, around, sizeof around);
    check_list(size, sizeof around / sizeof around[0], 0);
    lengths[0] = DIGESTS_CALL_MESSAGES;
    check_list(size, 1, 0);
}

/* ---------------- outputs ---------------- */

static void check_output(uint32_t size, size_t count, size_t out_len)
{
    size_t len = count * (size / 8);
    struct digests d = call_of(size, count, out_len);
    uint64_t got = check_digests_call(&d, NULL);
    check(got == (out_len < len ? REFUSED(4) : len),
          "size %" PRIu32 ", %zu messages, output of %zu: answered %" PRIx64, size, count,
          out_len, got);
}

/* Every length for a few messages; around what is needed, and far from it, for many. */
static void compare_outputs(uint32_t size)
{
    size_t digest_len = size / 8;
    check_group("output lengths, size %" PRIu32, size);
    make_lengths(SHORT, MOST_MESSAGES);
    random_fill(messages, (size_t)sum_of(MOST_MESSAGES));
    for (size_t count = 0; count <= 4; count++)
        for (size_t out_len = 0; out_len <= count * digest_len + MOST_BEHIND; out_len++)
            check_output(size, count, out_len);
    for (size_t count = MOST_MESSAGES - 1; count <= MOST_MESSAGES; count++) {
        size_t len = count * digest_len;
        for (size_t out_len = len - 2; out_len <= len + 2; out_len++)
            check_output(size, count, out_len);
        check_output(size, count, 0);
        check_output(size, count, digest_len);
        check_output(size, count, len / 2);
        check_output(size, count, len - digest_len);
        check_output(size, count, DIGESTS_CALL_OUT);
    }
}

/* ---------------- sums ---------------- */

/* The first lengths with so many joined bytes, which are not their sum. */
static void check_wrong_sum(uint32_t size, size_t count, uint64_t joined)
{
    size_t len = count * (size / 8);
    for (unsigned i = 0; i < 3; i++) {
        struct digests d = call_of(size, count, i == 2 ? DIGESTS_CALL_OUT : i * len);
        d.messages_len = (size_t)joined;
        uint64_t got = check_digests_call(&d, NULL);
        check(got == REFUSED(13),
              "size %" PRIu32 ", %zu lengths, %" PRIu64 " bytes: answered %" PRIx64, size,
              count, joined, got);
    }
}

/* The first lengths with their sum. They need no memory, as the output is too short. */
static void check_sum(uint32_t size, size_t count, uint64_t sum)
{
    size_t len = count * (size / 8);
    for (unsigned i = 0; i < 2; i++) {
        struct digests d = call_of(size, count, i * (len - 1));
        uint64_t got = check_digests_call(&d, NULL);
        check(got == REFUSED(4) && d.messages_len == sum,
              "size %" PRIu32 ", %zu lengths, %" PRIu64 " bytes: answered %" PRIx64, size,
              count, sum, got);
    }
}

/* Joined lengths that are off by a little, by a bit, and by 2^32. */
static void compare_sums(uint32_t size)
{
    static const size_t counts[] = {0, 1, 2, 3, 10, 1023, 1024};
    check_group("joined lengths beside the sum, size %" PRIu32, size);
    for (unsigned i = 0; i < sizeof counts / sizeof counts[0]; i++) {
        size_t count = counts[i];
        make_lengths(MIXED, count);
        if (count > 0)
            lengths[count - 1] = 1 + (uint32_t)random_below(EVERY_LENGTH);
        uint64_t sum = sum_of(count);
        random_fill(messages, (size_t)sum + 1);
        check_wrong_sum(size, count, sum + 1);
        check_wrong_sum(size, count, sum - 1);
        for (unsigned bit = 0; bit < 64; bit += 4)
            check_wrong_sum(size, count, sum ^ (uint64_t)1 << bit);
        if (count > 0) {
            check_wrong_sum(size, count, 0);
            check_wrong_sum(size, count, sum + lengths[count - 1]);
        }
    }
}

struct sum {
    size_t count;
    uint32_t lengths[4];
    uint64_t sum;
};

#define HALF ((uint32_t)1 << 31)

static const struct sum high_sums[] = {
    {1, {UINT32_MAX}, AT_32 - 1},
    {2, {UINT32_MAX, 1}, AT_32},
    {2, {1, UINT32_MAX}, AT_32},
    {2, {UINT32_MAX, 6}, AT_32 + 5},
    {2, {HALF, HALF - 1}, AT_32 - 1},
    {2, {HALF, HALF}, AT_32},
    {3, {HALF, 5, HALF}, AT_32 + 5},
    {3, {0, UINT32_MAX, UINT32_MAX}, 2 * AT_32 - 2},
    {4, {HALF, HALF, HALF, HALF}, 2 * AT_32},
    {4, {UINT32_MAX, UINT32_MAX, UINT32_MAX, 8}, 3 * AT_32 + 5},
};

/* Sums around 2^32 and above: themselves; and beside them, off by 1 and by 2^32, with bit
   63, and cut off at 32 bits. */
static void check_high_sum(uint32_t size, size_t count, uint64_t sum)
{
    check_sum(size, count, sum);
    check_wrong_sum(size, count, sum + AT_32);
    check_wrong_sum(size, count, sum - 1);
    check_wrong_sum(size, count, sum + 1);
    check_wrong_sum(size, count, sum | (uint64_t)1 << 63);
    if (sum >= AT_32) {
        check_wrong_sum(size, count, (uint32_t)sum);
        check_wrong_sum(size, count, sum - AT_32);
    }
}

/* Bytes of such messages are only claimed, as each of these calls is refused. */
static void compare_high_sums(uint32_t size)
{
    check_group("sums of 2^32 - 1 and above, size %" PRIu32, size);
    for (unsigned i = 0; i < sizeof high_sums / sizeof high_sums[0]; i++) {
        memcpy(lengths, high_sums[i].lengths, sizeof high_sums[i].lengths);
        check_high_sum(size, high_sums[i].count, high_sums[i].sum);
    }
    memset(lengths, 0xFF, sizeof lengths);
    check_high_sum(size, MOST_MESSAGES, MOST_MESSAGES * (AT_32 - 1));
    lengths[0] = UINT32_MAX;
    memset(lengths + 1, 0, sizeof lengths - sizeof lengths[0]);
    check_high_sum(size, MOST_MESSAGES, AT_32 - 1);
}

/* ---------------- at random ---------------- */

/* Mostly a few messages, now and then around the most. */
static size_t random_count(void)
{
    if (random_below(64) == 0)
        return MOST_MESSAGES - 8 + (size_t)random_below(12);
    return (size_t)random_below(8);
}

/* Mostly as long as the digests need, or longer. */
static size_t random_out_len(size_t len)
{
    switch (random_below(6)) {
    case 0: return (size_t)random_below(len + 1);
    case 1: return len > 0 ? len - 1 : 0;
    case 2: return len;
    default: return len + (size_t)random_below(MOST_BEHIND);
    }
}

/* Mostly all is right; else the output is too short, the size or the joined length is off,
   or there are too many messages. A joined length over what is lent is none of these sums,
   and so is refused. */
static void compare_random(void)
{
    static uint8_t written[DIGESTS_CALL_OUT];
    check_group("random lists");
    for (unsigned i = 0; i < RANDOM_CALLS; i++) {
        uint32_t size = sizes[i % 4];
        size_t count = random_count();
        make_lengths((enum manner)random_below(MANNERS), count);
        struct digests d = call_of(size, count, random_out_len(count * (size / 8)));
        random_pattern(messages, d.messages_len);
        if (random_below(16) == 0)
            d.size = (uint32_t)random_near(size);
        if (random_below(8) == 0)
            d.messages_len = (size_t)random_near(d.messages_len);
        uint64_t got = check_digests_call(&d, written);
        if (!is_refusal(got))
            check_one_by_one(&d, written);
    }
}

/* ---------------- refusals ---------------- */

/* Nothing else is wrong, and then everything. */
static void check_nonsense_size(uint32_t size)
{
    static const struct digests calls[] = {
        {0, messages, 0, lengths, 0, 0},
        {0, messages, 0, lengths, 0, 64},
        {0, messages, 16, lengths, 1, 64},
        {0, messages, 48, lengths, 3, 4096},
        {0, messages, 5, lengths, MOST_MESSAGES + 1, 0},
    };
    for (unsigned i = 0; i < sizeof calls / sizeof calls[0]; i++) {
        struct digests d = calls[i];
        d.size = size;
        check_digests_call(&d, NULL);
    }
}

static void compare_nonsense_sizes(void)
{
    check_group("nonsense sizes, and every size to %d", EVERY_SIZE);
    for (size_t k = 0; k < DIGESTS_CALL_LENGTHS; k++)
        lengths[k] = 16;
    for (uint32_t size = 0; size <= EVERY_SIZE; size++)
        check_nonsense_size(size);
    for (unsigned i = 0; i < 4; i++) {
        for (unsigned bit = 0; bit < 32; bit++)
            check_nonsense_size(sizes[i] ^ 1u << bit);
        check_nonsense_size(0u - sizes[i]);
    }
    check_nonsense_size(UINT32_MAX);
    for (unsigned i = 0; i < 100; i++)
        check_nonsense_size((uint32_t)random_bits(32));
}

/* A number's four bits say which conditions hold; the first in order decides. */
static void check_conditions(uint32_t size, unsigned conditions)
{
    bool is_bad_size = conditions & 1, is_too_many = conditions & 2;
    bool is_wrong_sum = conditions & 4, is_too_short = conditions & 8;
    size_t count = is_too_many ? MOST_MESSAGES + 1 : 1 + (size_t)random_below(5);
    size_t len = count * (size / 8);
    struct digests d = {is_bad_size ? size + 1 : size,
                        messages,
                        (size_t)sum_of(count) - is_wrong_sum,
                        lengths,
                        count,
                        is_too_short ? len - 1 : len};
    uint64_t got = check_digests_call(&d, NULL);
    check(got == (is_bad_size    ? REFUSED(1)
                  : is_too_many  ? REFUSED(12)
                  : is_wrong_sum ? REFUSED(13)
                  : is_too_short ? REFUSED(4)
                                 : len),
          "size %" PRIu32 ", conditions %x: answered %" PRIx64, size, conditions, got);
}

static void compare_conditions(void)
{
    check_group("conditions in every combination");
    for (unsigned i = 0; i < 4 * 16; i++) {
        make_lengths(MIXED, MOST_MESSAGES + 1);
        lengths[0] = 1;
        random_fill(messages, (size_t)sum_of(MOST_MESSAGES + 1));
        check_conditions(sizes[i % 4], i / 4);
    }
}

/* Around the most, and around 2^32. Of a list of 2^62 lengths the bytes would be 2^64. */
static const size_t list_lens[] = {
    0, 1, 2, 1023, 1024, 1025, 1026, 2048, 2049,
    AT_32, AT_32 + 1, AT_32 + 1024, (size_t)1 << 62, ((size_t)1 << 62) + 2, SIZE_MAX,
};

/* Joined lengths by what they are more than the sum. */
static const uint64_t beside_sum[] = {0, 1, UINT64_MAX, AT_32, (uint64_t)1 << 63};

/* Outputs of just the digests' length, of a byte more or less, of none and of the most. */
enum output { EXACT, ONE_MORE, ONE_LESS, NONE, THE_MOST, OUTPUTS };

enum {
    LISTS = sizeof list_lens / sizeof list_lens[0],
    SUMS = sizeof beside_sum / sizeof beside_sum[0]
};

static size_t choose_out_len(enum output output, size_t len)
{
    switch (output) {
    case EXACT: return len;
    case ONE_MORE: return len + 1;
    case ONE_LESS: return len > 0 ? len - 1 : 0;
    case NONE: return 0;
    default: return SIZE_MAX;
    }
}

/* An output that is only claimed goes with a call that is refused. */
static void compare_list(uint32_t size, unsigned number)
{
    size_t count = list_lens[number % LISTS];
    size_t held = count <= DIGESTS_CALL_LENGTHS ? count : DIGESTS_CALL_LENGTHS;
    uint64_t beside = beside_sum[number / LISTS % SUMS];
    enum output output = (enum output)(number / LISTS / SUMS);
    struct digests d = call_of(size, held, choose_out_len(output, held * (size / 8)));
    d.messages_len += (size_t)beside;
    d.lengths_len = count;
    if (output != THE_MOST || beside != 0 || count > MOST_MESSAGES)
        check_digests_call(&d, NULL);
}

static void compare_refusals(void)
{
    check_group("lengths of every buffer in every combination");
    make_lengths(SHORT, DIGESTS_CALL_LENGTHS);
    random_fill(messages, (size_t)sum_of(DIGESTS_CALL_LENGTHS) + 1);
    for (unsigned i = 0; i < 4; i++)
        for (unsigned number = 0; number < LISTS * SUMS * OUTPUTS; number++)
            compare_list(sizes[i], number);
}

struct point {
    const char *what;
    uint32_t size;
    size_t lengths_len;
    uint32_t length; /* of each message */
    uint64_t messages_len;
    size_t out_len;
    uint64_t answer;
};

/* Answers as numbers, without the reference. */
static const struct point points[] = {
    {"no messages and no output", 256, 0, 0, 0, 0, 0},
    {"no messages and an output", 512, 0, 0, 0, 100, 0},
    {"an empty message", 224, 1, 0, 0, 28, 28},
    {"a message and just its digest", 256, 1, 3, 3, 32, 32},
    {"a message and a longer output", 512, 1, 3, 3, 100, 64},
    {"three messages", 384, 3, 5, 15, 144, 144},
    {"two empty messages", 512, 2, 0, 0, 128, 128},
    {"a thousand messages", 256, 1000, 16, 16000, 32000, 32000},
    {"the most messages, size 224", 224, 1024, 16, 16384, 28672, 28672},
    {"the most messages, size 256", 256, 1024, 64, 65536, 32768, 32768},
    {"the most messages, size 384", 384, 1024, 128, 131072, 49152, 49152},
    {"the most messages, size 512", 512, 1024, 300, 307200, 65536, 65536},
    {"the most messages, all empty", 512, 1024, 0, 0, 131136, 65536},
    {"a message and no output", 224, 1, 3, 3, 0, REFUSED(4)},
    {"a message, one byte short", 224, 1, 3, 3, 27, REFUSED(4)},
    {"an empty message and no output", 256, 1, 0, 0, 0, REFUSED(4)},
    {"two messages and one digest", 256, 2, 3, 6, 32, REFUSED(4)},
    {"the most messages, one byte short", 512, 1024, 16, 16384, 65535, REFUSED(4)},
    {"the most messages and one digest", 384, 1024, 16, 16384, 48, REFUSED(4)},
    {"2^32 - 1 bytes and an output one byte short", 256, 1, UINT32_MAX, AT_32 - 1, 31,
     REFUSED(4)},
    {"no messages and a byte", 256, 0, 0, 1, 100, REFUSED(13)},
    {"no messages, a byte and no output", 256, 0, 0, 1, 0, REFUSED(13)},
    {"an empty message and a byte", 224, 1, 0, 1, 28, REFUSED(13)},
    {"a message without its bytes", 384, 1, 3, 0, 48, REFUSED(13)},
    {"a byte less than the messages", 512, 2, 3, 5, 128, REFUSED(13)},
    {"a byte more than the messages", 512, 2, 3, 7, 128, REFUSED(13)},
    {"a byte more and no output", 512, 2, 3, 7, 0, REFUSED(13)},
    {"2^32 bytes more", 256, 1, 3, AT_32 + 3, 32, REFUSED(13)},
    {"2^32 bytes less", 256, 2, 1u << 31, 0, 64, REFUSED(13)},
    {"any number of bytes", 256, 1, UINT32_MAX, UINT64_MAX, 32, REFUSED(13)},
    {"the most messages, a byte more", 224, 1024, 16, 16385, 28672, REFUSED(13)},
    {"one message more than the most", 256, 1025, 1, 1025, 65600, REFUSED(12)},
    {"one more, all empty", 256, 1025, 0, 0, 65600, REFUSED(12)},
    {"one more and no output", 256, 1025, 1, 1025, 0, REFUSED(12)},
    {"one more and no bytes", 256, 1025, 1, 0, 65600, REFUSED(12)},
    {"one more and neither", 512, 1025, 1, 0, 0, REFUSED(12)},
    {"twice the most", 224, 2048, 1, 2048, 65600, REFUSED(12)},
    {"2^32 messages", 256, AT_32, 0, 0, 64, REFUSED(12)},
    {"2^32 messages and two", 256, AT_32 + 2, 0, 0, 64, REFUSED(12)},
    {"a list of 2^64 bytes", 384, (size_t)1 << 62, 0, 0, 64, REFUSED(12)},
    {"any number of messages", 384, SIZE_MAX, 0, UINT64_MAX, SIZE_MAX, REFUSED(12)},
    {"no messages at no size", 0, 0, 0, 0, 0, REFUSED(1)},
    {"a message at size 225", 225, 1, 3, 3, 64, REFUSED(1)},
    {"a message at 2^16 + 256", 65792, 1, 3, 3, 64, REFUSED(1)},
    {"a message at 2^31 + 512", 2147484160, 1, 3, 3, 64, REFUSED(1)},
    {"a message at size 32", 32, 1, 3, 3, 64, REFUSED(1)},
    {"too short at no size", 320, 1, 3, 3, 0, REFUSED(1)},
    {"no sum at no size", 320, 1, 3, 4, 64, REFUSED(1)},
    {"too many at no size", 320, 1025, 0, 0, 64, REFUSED(1)},
    {"nothing right", 1, SIZE_MAX, 0, UINT64_MAX, 0, REFUSED(1)},
};

static void check_points(void)
{
    check_group("answers as numbers");
    random_fill(messages, sizeof messages);
    for (unsigned i = 0; i < sizeof points / sizeof points[0]; i++) {
        const struct point *p = &points[i];
        struct digests d = {p->size, messages,       (size_t)p->messages_len,
                            lengths, p->lengths_len, p->out_len};
        for (size_t k = 0; k < DIGESTS_CALL_LENGTHS; k++)
            lengths[k] = p->length;
        uint64_t got = check_digests_call(&d, NULL);
        check(got == p->answer, "%s: answered %" PRIx64, p->what, got);
    }
    check(EDONR_REFUSED_MESSAGE_COUNT == 12 && EDONR_REFUSED_JOINED_LENGTH == 13 &&
              EDONR_MESSAGES_MAX == 1024,
          "the header's numbers");
}

int main(int argc, char **argv)
{
    check_program("compare_digests", argc, argv);
    compare_random();
    for (unsigned i = 0; i < 4; i++) {
        compare_counts(sizes[i]);
        compare_lengths(sizes[i]);
        compare_edges(sizes[i]);
        compare_empty(sizes[i]);
        compare_long(sizes[i]);
        compare_outputs(sizes[i]);
        compare_sums(sizes[i]);
        compare_high_sums(sizes[i]);
    }
    compare_nonsense_sizes();
    compare_conditions();
    compare_refusals();
    check_points();
    return check_finish();
}
