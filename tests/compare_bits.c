/*
 * Messages that end inside a byte: finishing with bits by the archive against the
 * reference, of messages in pieces and from made-up states, and against the digests of
 * whole messages, worked out bit by bit.
 *
 * The single one bit stands in the same byte as the last bits, so a message of any count
 * has as many blocks as with a count of 0; lengths on both sides of each edge are tried
 * with every count.
 */
#include <inttypes.h>
#include <stdbool.h>
#include <stdlib.h>
#include <string.h>

#include "edonr.h"
#include "harness/check.h"
#include "harness/hash_call.h"
#include "harness/hash_maker.h"
#include "harness/random.h"
#include "reference/answer.h"
#include "reference/bits.h"

enum {
    COUNTS = 8, /* of bits that a last byte gives: 0 to 7 */
    MOST_DIGEST = 64,
    MOST_MESSAGE = MOST_MESSAGE_BITS / 8 - 1, /* in bytes, in front of the last bits */
    RANDOM_MESSAGES = 1500,
    MOST_PIECES = 6,
    STATES = 20000,
    MOST_SHORT = 9 /* bits of a message, of which there are all */
};

#define AT(power) ((uint64_t)1 << (power))
#define REFUSED(number) ((uint64_t)(number) << 32)

/* The bytes fed, and behind them the last byte. */
static uint8_t message[MOST_MESSAGE + 1];

/* ---------------- messages ---------------- */

/* The bits of a last byte that do not count. */
static uint8_t other_bits(uint32_t count)
{
    return (uint8_t)(0xFF >> count);
}

/* The struct may hold anything before it is opened. */
static void open_hash(enum kind kind, union hash *hash, uint32_t size)
{
    random_fill((uint8_t *)hash, sizeof *hash);
    check_open_call(kind, hash, size);
}

/* Finishes a hash that was fed the first bytes of the message, with bits of the byte behind
   them: the other bits as they are, all zero and all one. Each digest is held against that
   of the whole message. */
static void finish_message(enum kind kind, const union hash *hash, size_t fed,
                           uint32_t count)
{
    uint32_t size = (uint32_t)hash_size(kind, hash);
    uint8_t others = other_bits(count), last = message[fed];
    uint8_t lasts[] = {last, (uint8_t)(last & ~others), last | others};
    uint8_t want[MOST_DIGEST] = {0};
    reference_digest_of_bits(size, message, 8 * fed + count, want);
    for (unsigned i = 0; i < sizeof lasts; i++) {
        uint8_t got[MOST_DIGEST] = {0};
        size_t out_len = size / 8 + random_below(9);
        uint64_t answer = check_finish_bits_call(kind, hash, lasts[i], count, out_len, got);
        check(answer == size / 8 && memcmp(got, want, sizeof got) == 0,
              "size %" PRIu32 ", %zu bytes and %" PRIu32 " bits of %x", size, fed, count,
              lasts[i]);
    }
}

/* Every length up to two blocks and some, each with every count. The message is fed a byte
   at a time, and goes on behind its finishings. */
static void compare_every_length(enum kind kind, uint32_t size)
{
    union hash hash;
    size_t most = 2 * block_len(kind) + 2;
    open_hash(kind, &hash, size);
    for (size_t fed = 0; fed <= most; fed++) {
        for (uint32_t count = 0; count < COUNTS; count++)
            finish_message(kind, &hash, fed, count);
        check_feed_call(kind, &hash, message + fed, 1);
    }
}

/* Of a uniform message a bit's place shows in the padding alone. */
static void compare_lengths(enum kind kind, uint32_t size)
{
    static const uint8_t fills[] = {0x00, 0xFF, 0xAA};
    check_group("messages a byte at a time, size %" PRIu32, size);
    random_fill(message, sizeof message);
    compare_every_length(kind, size);
    for (unsigned i = 0; i < sizeof fills; i++) {
        memset(message, fills[i], sizeof message);
        compare_every_length(kind, size);
    }
}

/* With a count of 0 the digest is that of document 01's finishing and of the one call,
   whatever the last byte is. */
static void compare_no_bits(enum kind kind, uint32_t size)
{
    union hash hash;
    size_t most = 2 * block_len(kind) + 2, len = size / 8;
    check_group("a count of 0, size %" PRIu32, size);
    random_fill(message, most);
    open_hash(kind, &hash, size);
    for (size_t fed = 0; fed <= most; fed++) {
        uint8_t bits[MOST_DIGEST] = {0}, none[MOST_DIGEST] = {0}, one_call[MOST_DIGEST];
        uint8_t last = (uint8_t)(fed % 3 == 0 ? 0x00 : fed % 3 == 1 ? 0xFF : random_word());
        check_finish_bits_call(kind, &hash, last, 0, len, bits);
        check_finish_call(kind, &hash, len, none);
        edonr_digest(size, message, fed, one_call, len);
        check(memcmp(bits, none, len) == 0 && memcmp(bits, one_call, len) == 0,
              "size %" PRIu32 ", %zu bytes and no bits of %x", size, fed, last);
        check_feed_call(kind, &hash, message + fed, 1);
    }
}

/* Every last byte with every count: digests are the same where the bits that count are, and
   others where the last of these is another. */
static void compare_last_bytes(enum kind kind, const union hash *hash)
{
    static uint8_t digests[256][MOST_DIGEST];
    size_t len = (size_t)hash_size(kind, hash) / 8;
    for (uint32_t count = 0; count < COUNTS; count++) {
        for (unsigned last = 0; last < 256; last++)
            check_finish_bits_call(kind, hash, (uint8_t)last, count, len, digests[last]);
        for (unsigned last = 0; last < 256; last++) {
            unsigned bits = last & ~other_bits(count), nearby = last ^ (0x100u >> count);
            check(memcmp(digests[last], digests[bits], len) == 0 &&
                      (count == 0 || memcmp(digests[last], digests[nearby], len) != 0),
                  "%s, %" PRIu32 " bits of %x", kind_names[kind], count, last);
        }
    }
}

static void compare_every_last_byte(enum kind kind, uint32_t size)
{
    union hash hash;
    size_t block = block_len(kind);
    const size_t lens[] = {0, 1, block - 9, block - 8, block - 1, block, 2 * block - 9};
    check_group("every last byte, size %" PRIu32, size);
    random_fill(message, sizeof message);
    for (unsigned i = 0; i < sizeof lens / sizeof lens[0]; i++) {
        open_hash(kind, &hash, size);
        check_feed_call(kind, &hash, message, lens[i]);
        compare_last_bytes(kind, &hash);
    }
}

/* ---------------- all short messages ---------------- */

enum { SHORT_MESSAGES = (1 << (MOST_SHORT + 1)) - 1 };

struct digest {
    uint8_t at[MOST_DIGEST];
};

static int order_digests(const void *a, const void *b)
{
    return memcmp(a, b, sizeof(struct digest));
}

/* A message of so few bits, which are a number's, highest first. */
static void digest_short(enum kind kind, uint32_t size, unsigned bits, unsigned number,
                         struct digest *digest)
{
    union hash hash;
    unsigned shifted = number << (16 - bits);
    message[0] = (uint8_t)(shifted >> 8);
    message[1] = (uint8_t)shifted;
    memset(digest, 0, sizeof *digest);
    open_hash(kind, &hash, size);
    check_feed_call(kind, &hash, message, bits / 8);
    check_finish_bits_call(kind, &hash, message[bits / 8], bits % 8, size / 8, digest->at);
}

/* No two of them have the same digest, whether or not one is the other with bits behind. */
static void compare_short(enum kind kind, uint32_t size)
{
    static struct digest digests[SHORT_MESSAGES];
    size_t made = 0;
    check_group("all messages of 0 to %d bits, size %" PRIu32, MOST_SHORT, size);
    for (unsigned bits = 0; bits <= MOST_SHORT; bits++)
        for (unsigned number = 0; number < 1u << bits; number++)
            digest_short(kind, size, bits, number, &digests[made++]);
    qsort(digests, made, sizeof digests[0], order_digests);
    for (size_t i = 1; i < made; i++)
        check(order_digests(&digests[i - 1], &digests[i]) != 0, "size %" PRIu32, size);
}

/* ---------------- pieces ---------------- */

/* Every cut into two pieces, with bits behind the first piece and behind both. */
static void compare_cuts(enum kind kind, uint32_t size, size_t len)
{
    union hash hash;
    random_fill(message, len + 1);
    for (size_t cut = 0; cut <= len; cut++) {
        open_hash(kind, &hash, size);
        check_feed_call(kind, &hash, message, cut);
        finish_message(kind, &hash, cut, (uint32_t)random_below(COUNTS));
        check_feed_call(kind, &hash, message + cut, len - cut);
        for (uint32_t count = 0; count < COUNTS; count++)
            finish_message(kind, &hash, len, count);
    }
}

static void compare_every_cut(enum kind kind, uint32_t size)
{
    size_t block = block_len(kind);
    const size_t lens[] = {1,     block - 9,     block - 8, block - 1,
                           block, 2 * block - 9, 2 * block};
    check_group("every cut of some messages, size %" PRIu32, size);
    for (unsigned i = 0; i < sizeof lens / sizeof lens[0]; i++)
        compare_cuts(kind, size, lens[i]);
}

/* Messages of up to 14 bits of length, in random pieces, some of which are empty. */
static void compare_random(enum kind kind, uint32_t size)
{
    union hash hash;
    check_group("random messages, size %" PRIu32, size);
    for (unsigned i = 0; i < RANDOM_MESSAGES; i++) {
        size_t len = (size_t)random_bits(14), fed = 0;
        len = len <= MOST_MESSAGE ? len : MOST_MESSAGE;
        random_pattern(message, len + 1);
        open_hash(kind, &hash, size);
        for (unsigned piece = 0; piece < MOST_PIECES; piece++) {
            size_t next = (size_t)random_below(len - fed + 1);
            check_feed_call(kind, &hash, message + fed, next);
            fed += next;
        }
        check_feed_call(kind, &hash, message + fed, len - fed);
        finish_message(kind, &hash, len, (uint32_t)random_below(COUNTS));
    }
}

/* ---------------- made-up states ---------------- */

/* Mostly one that is accepted or just over, else any. */
static uint32_t random_count(void)
{
    return (uint32_t)(random_below(8) == 0 ? random_bits(32) : random_below(COUNTS + 2));
}

/* An output is claimed only where the call is refused without it. */
static void compare_made_up(enum kind kind)
{
    union hash hash;
    check_group("made-up states, %s", kind_names[kind]);
    for (unsigned i = 0; i < STATES; i++) {
        uint8_t last = (uint8_t)random_word();
        uint32_t count = random_count();
        make_up_hash(kind, &hash);
        uint64_t answer = check_finish_bits_call(kind, &hash, last, count,
                                                 (size_t)random_below(80), NULL);
        if (is_refusal(answer) && answer != REFUSED(4))
            check_finish_bits_call(kind, &hash, last, count, (size_t)random_word(), NULL);
        check_finish_bits_call(kind, &hash, last, count % COUNTS, MOST_DIGEST, NULL);
    }
}

/* Every number of waiting bytes, with every count. */
static void compare_every_waiting(enum kind kind)
{
    union hash hash;
    size_t block = block_len(kind);
    check_group("every number of waiting bytes, %s", kind_names[kind]);
    for (size_t n = 0; n < 2 * block * COUNTS; n++) {
        uint64_t blocks = random_word() >> 4;
        random_fill((uint8_t *)&hash, sizeof hash);
        set_hash(kind, &hash, kind_sizes[kind][n % 2],
                 blocks / block * block + n / 2 / COUNTS);
        check_finish_bits_call(kind, &hash, (uint8_t)random_word(), n / 2 % COUNTS,
                               MOST_DIGEST, NULL);
    }
}

/* Totals where another byte of the length begins, and around the limit. */
static const uint64_t totals[] = {
    0,          1,          AT(5) - 1,  AT(5),      AT(13) - 1, AT(13),
    AT(21) - 1, AT(21),     AT(29) - 1, AT(29),     AT(32),     AT(37) - 1,
    AT(37),     AT(45),     AT(53) - 1, AT(53),     AT(61) - 2, AT(61) - 1,
    AT(61),     AT(61) + 1, AT(63),     UINT64_MAX,
};

static void compare_totals(enum kind kind, uint32_t size)
{
    union hash hash;
    check_group("totals at the edges, size %" PRIu32, size);
    for (unsigned i = 0; i < sizeof totals / sizeof totals[0]; i++)
        for (uint32_t count = 0; count < COUNTS; count++) {
            random_fill((uint8_t *)&hash, sizeof hash);
            set_hash(kind, &hash, size, totals[i]);
            uint64_t got = check_finish_bits_call(kind, &hash, (uint8_t)random_word(),
                                                  count, MOST_DIGEST, NULL);
            check(got == (totals[i] < AT(61) ? size / 8 : REFUSED(2)),
                  "total %" PRIx64 ", %" PRIu32 " bits: answered %" PRIx64, totals[i],
                  count, got);
        }
}

/* ---------------- padded blocks written by hand ---------------- */

/* A message's bytes and last bits, and what its only block begins with; behind that are
   zeros, and the number of bits in the last 8 bytes, of which the first is given. */
struct padded {
    const char *fed;
    uint8_t last;
    uint32_t count;
    uint8_t front[6];
    uint8_t bits;
};

static const struct padded padded_blocks[] = {
    {"", 0xFF, 0, {0x80}, 0},
    {"", 0x80, 1, {0xC0}, 1},
    {"", 0x7F, 1, {0x40}, 1},
    {"", 0xA5, 2, {0xA0}, 2},
    {"", 0xA5, 3, {0xB0}, 3},
    {"", 0x00, 4, {0x08}, 4},
    {"", 0x98, 5, {0x9C}, 5},
    {"", 0x63, 6, {0x62}, 6},
    {"", 0xFF, 7, {0xFF}, 7},
    {"", 0xFE, 7, {0xFF}, 7},
    {"", 0x01, 7, {0x01}, 7},
    {"abc", 0x64, 0, {0x61, 0x62, 0x63, 0x80}, 24},
    {"abc", 0x64, 3, {0x61, 0x62, 0x63, 0x70}, 27},
    {"abc", 0x64, 7, {0x61, 0x62, 0x63, 0x65}, 31},
    {"abcde", 0xC0, 2, {0x61, 0x62, 0x63, 0x64, 0x65, 0xE0}, 42},
};

/* The digest that the archive's own steps make of a pipe and blocks that are padded. */
static void digest_by_steps(enum kind kind, const union hash *hash, const uint8_t *blocks,
                            size_t count, uint8_t *digest)
{
    uint8_t pipe[128];
    uint32_t width = kind == NARROW ? 32 : 64;
    size_t len = block_len(kind), digest_len = (size_t)hash_size(kind, hash) / 8;
    if (kind == NARROW)
        memcpy(pipe, hash->narrow.pipe, len);
    else
        memcpy(pipe, hash->wide.pipe, len);
    for (size_t i = 0; i < count; i++)
        edonr_block_forward(width, pipe, len, blocks + i * len, len);
    memcpy(digest, pipe + len - digest_len, digest_len);
}

static void check_padded(enum kind kind, uint32_t size, const struct padded *p)
{
    union hash hash, opened;
    uint8_t block[128] = {0}, got[MOST_DIGEST] = {0}, want[MOST_DIGEST] = {0};
    open_hash(kind, &hash, size);
    opened = hash;
    check_feed_call(kind, &hash, (const uint8_t *)p->fed, strlen(p->fed));
    check_finish_bits_call(kind, &hash, p->last, p->count, size / 8, got);
    memcpy(block, p->front, sizeof p->front);
    block[block_len(kind) - 8] = p->bits;
    digest_by_steps(kind, &opened, block, 1, want);
    check(memcmp(got, want, sizeof got) == 0,
          "size %" PRIu32 ", \"%s\" and %" PRIu32 " bits of %x", size, p->fed, p->count,
          p->last);
}

/* The longest message: 2^61 - 1 bytes and 7 bits, which fill their block but for the single
   one bit. The length in the block behind it is all ones. */
static void check_longest(enum kind kind, uint32_t size)
{
    union hash hash;
    uint8_t blocks[2 * 128] = {0}, got[MOST_DIGEST] = {0}, want[MOST_DIGEST] = {0};
    size_t len = block_len(kind);
    random_fill((uint8_t *)&hash, sizeof hash);
    set_hash(kind, &hash, size, AT(61) - 1);
    memcpy(blocks, kind == NARROW ? hash.narrow.waiting : hash.wide.waiting, len - 1);
    blocks[len - 1] = 0xA4 | 1;
    memset(blocks + 2 * len - 8, 0xFF, 8);
    uint64_t answer = check_finish_bits_call(kind, &hash, 0xA4, 7, size / 8, got);
    digest_by_steps(kind, &hash, blocks, 2, want);
    check(answer == size / 8 && memcmp(got, want, sizeof got) == 0,
          "size %" PRIu32 ", 2^64 - 1 bits: answered %" PRIx64, size, answer);
}

static void compare_padded(enum kind kind, uint32_t size)
{
    check_group("padded blocks written by hand, size %" PRIu32, size);
    for (unsigned i = 0; i < sizeof padded_blocks / sizeof padded_blocks[0]; i++)
        check_padded(kind, size, &padded_blocks[i]);
    for (unsigned i = 0; i < 10; i++)
        check_longest(kind, size);
}

/* ---------------- refusals ---------------- */

/* Counts that are accepted, and others: just over, equal to one of those in 3, 4, 8, 16 or
   31 bits, and the most. */
static const uint32_t counts[] = {
    0,          1,       2,         3,          4,          5,          6,
    7,          8,       9,         10,         15,         16,         23,
    24,         127,     128,       255,        256,        257,        263,
    65535,      1 << 16, 65536 + 7, 0x7FFFFFFF, 0x80000000, 0x80000003, UINT32_MAX - 1,
    UINT32_MAX,
};

/* By what a size is more than one of the kind's, and a total: the hash is in form where
   both are 0. */
static const struct {
    uint64_t more_size, total;
} states[] = {
    {0, 0},      {0, 117},     {0, AT(61) - 1}, {1, 0},
    {AT(32), 5}, {AT(63), 64}, {0, AT(61)},     {0, UINT64_MAX},
};

enum { COUNTS_TRIED = sizeof counts / sizeof counts[0], STATES_TRIED = 8, IN_FORM = 3 };

/* Outputs of just the digest's length, of a byte more or less, and of none; the last is
   longer than any, and goes with a call that is refused without it. */
enum output { EXACT, ONE_MORE, ONE_LESS, NONE, THE_MOST, OUTPUTS };

static size_t choose_out_len(enum output output, size_t len)
{
    switch (output) {
    case EXACT: return len;
    case ONE_MORE: return len + 1;
    case ONE_LESS: return len - 1;
    case NONE: return 0;
    default: return SIZE_MAX;
    }
}

static void check_conditions(enum kind kind, uint32_t size, unsigned state, uint32_t count,
                             enum output output)
{
    union hash hash;
    size_t out_len = choose_out_len(output, size / 8);
    bool is_bad_state = state >= IN_FORM, is_bad_count = count > 7;
    if (output == THE_MOST && !is_bad_state && !is_bad_count)
        return;
    random_fill((uint8_t *)&hash, sizeof hash);
    set_hash(kind, &hash, size + states[state].more_size, states[state].total);
    uint64_t got =
        check_finish_bits_call(kind, &hash, (uint8_t)random_word(), count, out_len, NULL);
    check(got == (is_bad_state         ? REFUSED(2)
                  : is_bad_count       ? REFUSED(15)
                  : out_len < size / 8 ? REFUSED(4)
                                       : size / 8),
          "size %" PRIu32 ", state %u, count %" PRIx32 ", output of %zu: answered %" PRIx64,
          size, state, count, out_len, got);
}

static void compare_conditions(enum kind kind, uint32_t size)
{
    check_group("conditions in every combination, size %" PRIu32, size);
    for (unsigned n = 0; n < STATES_TRIED * COUNTS_TRIED * OUTPUTS; n++)
        check_conditions(kind, size, n % STATES_TRIED,
                         counts[n / STATES_TRIED % COUNTS_TRIED],
                         (enum output)(n / STATES_TRIED / COUNTS_TRIED));
}

/* Every length of an output with every count, and one that is refused. */
static void compare_outputs(enum kind kind, uint32_t size)
{
    union hash hash;
    check_group("output lengths, size %" PRIu32, size);
    for (size_t out_len = 0; out_len <= size / 8 + 70; out_len++)
        for (uint32_t count = 0; count <= COUNTS; count++) {
            random_fill((uint8_t *)&hash, sizeof hash);
            set_hash(kind, &hash, size, random_bits(61));
            check_finish_bits_call(kind, &hash, (uint8_t)random_word(), count, out_len,
                                   NULL);
        }
}

struct point {
    enum kind kind;
    uint64_t size;
    uint64_t total;
    uint32_t count;
    size_t out_len;
    uint64_t answer;
};

/* Answers as numbers, without the reference. */
static const struct point points[] = {
    {NARROW, 224, 0, 0, 28, 28},
    {NARROW, 224, 55, 7, 28, 28},
    {NARROW, 256, 56, 1, 32, 32},
    {NARROW, 256, AT(61) - 1, 7, 100, 32},
    {WIDE, 384, 0, 7, 48, 48},
    {WIDE, 512, 119, 7, 64, 64},
    {WIDE, 512, AT(61) - 1, 7, 64, 64},
    {NARROW, 256, 0, 7, 31, REFUSED(4)},
    {WIDE, 512, 0, 7, 63, REFUSED(4)},
    {WIDE, 384, 0, 0, 0, REFUSED(4)},
    {NARROW, 256, 0, 8, 32, REFUSED(15)},
    {WIDE, 512, 0, 8, 64, REFUSED(15)},
    {NARROW, 224, 0, 8, 27, REFUSED(15)},
    {WIDE, 384, 0, 9, 0, REFUSED(15)},
    {NARROW, 256, 0, 255, 32, REFUSED(15)},
    {NARROW, 256, 0, 256, 32, REFUSED(15)},
    {WIDE, 512, 0, 1u << 31, 64, REFUSED(15)},
    {NARROW, 224, 0, UINT32_MAX, SIZE_MAX, REFUSED(15)},
    {WIDE, 384, AT(61) - 1, UINT32_MAX, 0, REFUSED(15)},
    {NARROW, 256, AT(61), 7, 32, REFUSED(2)},
    {WIDE, 512, AT(61), 0, 64, REFUSED(2)},
    {NARROW, 256, AT(61), 8, 32, REFUSED(2)},
    {NARROW, 384, 0, 8, 0, REFUSED(2)},
    {WIDE, 256, 0, 1, 0, REFUSED(2)},
    {WIDE, AT(32) + 512, 0, 3, 64, REFUSED(2)},
    {NARROW, 0, 0, UINT32_MAX, SIZE_MAX, REFUSED(2)},
};

static void check_points(void)
{
    union hash hash;
    check_group("answers as numbers");
    for (unsigned i = 0; i < sizeof points / sizeof points[0]; i++) {
        const struct point *p = &points[i];
        random_fill((uint8_t *)&hash, sizeof hash);
        set_hash(p->kind, &hash, p->size, p->total);
        uint64_t got =
            check_finish_bits_call(p->kind, &hash, 0x5A, p->count, p->out_len, NULL);
        check(got == p->answer, "finishing %u: answered %" PRIx64, i, got);
    }
    check(EDONR_REFUSED_BIT_COUNT == 15, "the header's number");
}

int main(int argc, char **argv)
{
    check_program("compare_bits", argc, argv);
    for (unsigned i = 0; i < 4; i++) {
        enum kind kind = (enum kind)(i / 2);
        uint32_t size = kind_sizes[kind][i % 2];
        compare_lengths(kind, size);
        compare_no_bits(kind, size);
        compare_every_last_byte(kind, size);
        compare_short(kind, size);
        compare_every_cut(kind, size);
        compare_random(kind, size);
        compare_totals(kind, size);
        compare_padded(kind, size);
        compare_conditions(kind, size);
        compare_outputs(kind, size);
    }
    for (enum kind kind = NARROW; kind < KINDS; kind++) {
        compare_made_up(kind);
        compare_every_waiting(kind);
    }
    check_points();
    return check_finish();
}
