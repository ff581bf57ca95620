/*
 * Hashing in pieces against the reference: opening, feeding and finishing, from opened
 * states and from made-up ones, whole structs compared.
 */
#include <inttypes.h>
#include <stddef.h>
#include <string.h>

#include "edonr.h"
#include "harness/check.h"
#include "harness/hash_call.h"
#include "harness/hash_maker.h"
#include "harness/random.h"
#include "reference/answer.h"
#include "reference/digest.h"

enum {
    SHORT_MESSAGES = 400,
    MIDDLE_MESSAGES = 200,
    LONG_MESSAGES = 4,
    MOST_PIECES = 12,
    STATES = 20000
};

_Static_assert(offsetof(struct edonr_narrow, size) == offsetof(struct hash_32, size) &&
                   offsetof(struct edonr_narrow, first) == offsetof(struct hash_32, pipe) &&
                   offsetof(struct edonr_narrow, second) ==
                       offsetof(struct hash_32, pipe[8]) &&
                   offsetof(struct edonr_narrow, waiting) ==
                       offsetof(struct hash_32, waiting) &&
                   offsetof(struct edonr_narrow, total) == offsetof(struct hash_32, total),
               "the header's narrow struct is the reference's");
_Static_assert(offsetof(struct edonr_wide, size) == offsetof(struct hash_64, size) &&
                   offsetof(struct edonr_wide, first) == offsetof(struct hash_64, pipe) &&
                   offsetof(struct edonr_wide, second) ==
                       offsetof(struct hash_64, pipe[8]) &&
                   offsetof(struct edonr_wide, waiting) ==
                       offsetof(struct hash_64, waiting) &&
                   offsetof(struct edonr_wide, total) == offsetof(struct hash_64, total),
               "the header's wide struct is the reference's");

static uint8_t message[HASH_CALL_BYTES];

/* ---------------- messages in pieces ---------------- */

/* The struct may hold anything before it is opened. */
static void open_hash(enum kind kind, union hash *hash, uint32_t size)
{
    random_fill((uint8_t *)hash, sizeof *hash);
    check_open_call(kind, hash, size);
}

/* Finishes, and holds the digest against the reference's one call over all bytes fed. */
static void finish_message(enum kind kind, const union hash *hash, size_t fed,
                           size_t out_len)
{
    uint8_t got[64] = {0}, want[64] = {0};
    uint32_t size = (uint32_t)hash_size(kind, hash);
    reference_digest(size, message, fed, want, size / 8);
    check_finish_call(kind, hash, out_len, got);
    check(memcmp(got, want, sizeof got) == 0, "size %" PRIu32 ", %zu bytes in pieces", size,
          fed);
}

/* The length of the next piece: often none or what fills a block, some short, some long. */
static size_t piece_len(enum kind kind, size_t fed, size_t left)
{
    size_t len;
    switch (random_below(4)) {
    case 0: len = random_below(2) * (block_len(kind) - fed % block_len(kind)); break;
    case 1: len = (size_t)random_below(2 * block_len(kind)); break;
    case 2: len = (size_t)random_bits(24); break;
    default: len = (size_t)random_below(left + 1);
    }
    return len < left ? len : left;
}

/* Fed in pieces, finished on the way now and then, and once all is fed. */
static void compare_message(enum kind kind, uint32_t size, size_t len)
{
    union hash hash;
    size_t fed = 0;
    random_fill(message, len);
    open_hash(kind, &hash, size);
    for (unsigned piece = 0; piece < MOST_PIECES; piece++) {
        size_t next = piece_len(kind, fed, len - fed);
        check_feed_call(kind, &hash, message + fed, next);
        fed += next;
        if (random_below(4) == 0)
            finish_message(kind, &hash, fed, size / 8);
    }
    check_feed_call(kind, &hash, message + fed, len - fed);
    finish_message(kind, &hash, len, size / 8 + random_below(9));
}

static void compare_messages(enum kind kind, uint32_t size)
{
    check_group("messages in random pieces, size %" PRIu32, size);
    for (unsigned i = 0; i < SHORT_MESSAGES; i++)
        compare_message(kind, size, (size_t)random_below(1201));
    for (unsigned i = 0; i < MIDDLE_MESSAGES; i++)
        compare_message(kind, size, (size_t)random_bits(17));
    for (unsigned i = 0; i < LONG_MESSAGES; i++)
        compare_message(kind, size, (size_t)random_below(sizeof message + 1));
}

/* Every length around one block and two, a byte at a time. */
static void compare_single_bytes(enum kind kind, uint32_t size)
{
    union hash hash;
    size_t most = 2 * block_len(kind) + 3;
    check_group("messages a byte at a time, size %" PRIu32, size);
    random_fill(message, most);
    open_hash(kind, &hash, size);
    for (size_t len = 0; len < most; len++) {
        finish_message(kind, &hash, len, size / 8);
        check_feed_call(kind, &hash, message + len, 1);
    }
}

/* ---------------- made-up states ---------------- */

static void feed_made_up(enum kind kind, const union hash *made_up)
{
    union hash hash = *made_up;
    size_t len = (size_t)(random_below(16) == 0 ? random_bits(15) : random_below(300));
    random_fill(message, len);
    check_feed_call(kind, &hash, message, len);
    check_finish_call(kind, &hash, 64, NULL);
}

/* A length that would pass the limit; it is refused unread. */
static void claim_too_much(enum kind kind, const union hash *made_up)
{
    union hash hash = *made_up;
    uint64_t total = hash_total(kind, &hash);
    uint64_t room = total <= MOST_BYTES_FED ? MOST_BYTES_FED - total : 0;
    uint64_t more =
        random_below(2) == 0 ? random_bits(10) : random_below(UINT64_MAX - room);
    check_feed_call(kind, &hash, message, (size_t)(room + 1 + more));
}

static void compare_made_up(enum kind kind)
{
    union hash hash;
    check_group("made-up states, %s", kind_names[kind]);
    for (unsigned i = 0; i < STATES; i++) {
        make_up_hash(kind, &hash);
        feed_made_up(kind, &hash);
        claim_too_much(kind, &hash);
        check_finish_call(kind, &hash, (size_t)random_below(80), NULL);
    }
}

/* Every number of waiting bytes with every number of bytes fed up to two blocks. */
static void compare_every_waiting(enum kind kind)
{
    union hash made_up, hash;
    check_group("every number of waiting bytes, %s", kind_names[kind]);
    for (size_t waiting = 0; waiting < block_len(kind); waiting++) {
        random_fill((uint8_t *)&made_up, sizeof made_up);
        uint64_t blocks = random_word() >> 4;
        set_hash(kind, &made_up, kind_sizes[kind][waiting % 2],
                 blocks / block_len(kind) * block_len(kind) + waiting);
        check_finish_call(kind, &made_up, 64, NULL);
        for (size_t len = 0; len <= 2 * block_len(kind); len++) {
            hash = made_up;
            random_fill(message, len);
            check_feed_call(kind, &hash, message, len);
        }
    }
}

/* ---------------- openings ---------------- */

/* Refused or not, over a struct of any bytes, which is then fed and finished. */
static void compare_opening(enum kind kind, uint32_t size)
{
    union hash hash;
    open_hash(kind, &hash, size);
    feed_made_up(kind, &hash);
    make_up_hash(kind, &hash);
    check_open_call(kind, &hash, size);
    feed_made_up(kind, &hash);
}

static void compare_openings(enum kind kind)
{
    static const uint32_t odd_sizes[] = {0, 1, 28, 32, 48, 64, 128, 160, 1024, UINT32_MAX};
    check_group("openings, %s", kind_names[kind]);
    for (unsigned i = 0; i < sizeof odd_sizes / sizeof odd_sizes[0]; i++)
        compare_opening(kind, odd_sizes[i]);
    for (unsigned i = 0; i < 4; i++) {
        uint32_t sound = kind_sizes[i / 2][i % 2];
        for (uint32_t size = sound - 2; size <= sound + 2; size++)
            compare_opening(kind, size);
        for (unsigned bit = 0; bit < 32; bit++)
            compare_opening(kind, sound ^ 1u << bit);
    }
    for (unsigned i = 0; i < 200; i++)
        compare_opening(kind, (uint32_t)random_bits(32));
}

/* ---------------- answers as numbers ---------------- */

struct point {
    enum kind kind;
    uint64_t size;
    uint64_t total;
    uint64_t len;
    uint64_t answer;
};

#define LIMIT (((uint64_t)1 << 61) - 1)
#define OVER_32 ((uint64_t)1 << 32)
#define REFUSED(number) ((uint64_t)(number) << 32)
#define MARKED(number) (((uint64_t)1 << 63) + REFUSED(number))

/*
 * Feedings at the edges, without the reference. No machine can lend 2^61 bytes, so a
 * length alone is claimed there; each such point is refused, and a refusal reads no byte.
 */
static const struct point feedings[] = {
    {NARROW, 224, LIMIT, 1, MARKED(3)},
    {WIDE, 512, LIMIT, 1, MARKED(3)},
    {NARROW, 256, LIMIT, 0, LIMIT},
    {WIDE, 384, LIMIT, 0, LIMIT},
    {NARROW, 256, LIMIT - 1, 1, LIMIT},
    {WIDE, 512, LIMIT - 1, 1, LIMIT},
    {NARROW, 256, LIMIT - 1, 2, MARKED(3)},
    {NARROW, 256, LIMIT + 1, 0, MARKED(2)},
    {WIDE, 512, LIMIT + 1, 0, MARKED(2)},
    {NARROW, 256, UINT64_MAX, 1, MARKED(2)},
    {NARROW, 384, 0, 0, MARKED(2)},
    {WIDE, 256, 0, 0, MARKED(2)},
    {NARROW, 0, 0, 0, MARKED(2)},
    {NARROW, OVER_32 + 256, 0, 2, MARKED(2)},
    {WIDE, OVER_32 + 512, 0, 2, MARKED(2)},
    {WIDE, ((uint64_t)1 << 63) + 384, 0, 0, MARKED(2)},
    {NARROW, 224, 0, LIMIT + 1, MARKED(3)},
    {WIDE, 384, 1, LIMIT, MARKED(3)},
    {NARROW, 256, 0, UINT64_MAX, MARKED(3)},
    {NARROW, 225, 0, UINT64_MAX, MARKED(2)},
    {NARROW, 256, 3 * OVER_32 - 1, 1, 3 * OVER_32},
};

/* Finishings at the edges; len is that of the output. */
static const struct point finishings[] = {
    {NARROW, 224, LIMIT, 28, 28},
    {NARROW, 256, 0, 64, 32},
    {WIDE, 384, 5, 48, 48},
    {WIDE, 512, LIMIT, 100, 64},
    {NARROW, 224, 0, 27, REFUSED(4)},
    {NARROW, 256, 0, 31, REFUSED(4)},
    {WIDE, 384, 0, 47, REFUSED(4)},
    {WIDE, 512, 0, 0, REFUSED(4)},
    {NARROW, 512, 0, 0, REFUSED(2)},
    {WIDE, 224, 0, 64, REFUSED(2)},
    {NARROW, 256, LIMIT + 1, 0, REFUSED(2)},
    {NARROW, OVER_32 + 224, 0, 64, REFUSED(2)},
    {WIDE, OVER_32 + 384, 0, 64, REFUSED(2)},
};

static void check_points(void)
{
    union hash hash;
    check_group("answers as numbers");
    for (unsigned i = 0; i < sizeof feedings / sizeof feedings[0]; i++) {
        const struct point *p = &feedings[i];
        random_fill((uint8_t *)&hash, sizeof hash);
        set_hash(p->kind, &hash, p->size, p->total);
        uint64_t got = check_feed_call(p->kind, &hash, message, (size_t)p->len);
        check(got == p->answer, "feeding %u: answered %" PRIx64, i, got);
    }
    for (unsigned i = 0; i < sizeof finishings / sizeof finishings[0]; i++) {
        const struct point *p = &finishings[i];
        random_fill((uint8_t *)&hash, sizeof hash);
        set_hash(p->kind, &hash, p->size, p->total);
        uint64_t got = check_finish_call(p->kind, &hash, (size_t)p->len, NULL);
        check(got == p->answer, "finishing %u: answered %" PRIx64, i, got);
    }
    check(check_open_call(NARROW, &hash, 224) == 0, "narrow, opened with 224");
    check(check_open_call(WIDE, &hash, 512) == 0, "wide, opened with 512");
    check(check_open_call(NARROW, &hash, 384) == REFUSED(1), "narrow, opened with 384");
    check(check_open_call(WIDE, &hash, 256) == REFUSED(1), "wide, opened with 256");
}

/* The header's numbers and its helpers. */
static void check_header(void)
{
    static const uint64_t successes[] = {0, 28, 64, 3 * OVER_32, LIMIT};
    check_group("the header");
    check(EDONR_REFUSED_SIZE == 1 && EDONR_REFUSED_STATE == 2 &&
              EDONR_REFUSED_MESSAGE == 3 && EDONR_REFUSED_OUTPUT == 4 &&
              EDONR_MARK == (uint64_t)1 << 63,
          "the header's numbers");
    for (uint32_t number = 1; number <= 11; number++)
        check(edonr_marked_refusal(MARKED(number)) == number, "refusal %" PRIu32, number);
    for (unsigned i = 0; i < sizeof successes / sizeof successes[0]; i++)
        check(edonr_marked_refusal(successes[i]) == 0, "success %" PRIx64, successes[i]);
}

int main(int argc, char **argv)
{
    check_program("compare_pieces", argc, argv);
    for (enum kind kind = NARROW; kind < KINDS; kind++) {
        for (unsigned i = 0; i < 2; i++) {
            compare_messages(kind, kind_sizes[kind][i]);
            compare_single_bytes(kind, kind_sizes[kind][i]);
        }
        compare_made_up(kind);
        compare_every_waiting(kind);
        compare_openings(kind);
    }
    check_points();
    check_header();
    return check_finish();
}
