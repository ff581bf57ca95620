/*
 * The byte shuffle of records and its way back by the archive against the reference, bit
 * for bit, and each against the other.
 */
#include <inttypes.h>
#include <stdbool.h>
#include <string.h>

#include "edonr.h"
#include "harness/check.h"
#include "harness/random.h"
#include "harness/sheet_maker.h"
#include "harness/shuffle_call.h"
#include "reference/answer.h"

enum {
    RANDOM_CALLS = 20000,
    EVERY_LENGTH = 4,  /* records, up to which every length is tried */
    EVERY_COUNT = 100, /* records, up to which every number is tried */
    JOINED = 2000,
    RANDOM_WIDTHS = 200,
    SMALL_WIDTHS = 300,
    MOST_TOLD = 3,    /* records whose bytes tell their places */
    MOST_BEHIND = 100 /* bytes of an output behind the records */
};

static const uint32_t widths[2] = {32, 64};
static uint8_t records[SHUFFLE_CALL_CAPACITY];

static size_t record_len(uint32_t width)
{
    return width == 64 ? RECORD_64 : RECORD_32;
}

/* ---------------- both ways ---------------- */

/* Around the records' length: none, too short, exact or longer. */
static size_t random_out_len(size_t len)
{
    switch (random_below(5)) {
    case 0: return 0;
    case 1: return (size_t)random_below(len + 1);
    case 2: return len > 0 ? len - 1 : 0;
    case 3: return len;
    default: return len + (size_t)random_below(MOST_BEHIND);
    }
}

/* The first len bytes of records one way, with room enough and with any output; if they are
   accepted, the other way as well, which has to give the bytes back. */
static void check_way(enum direction direction, uint32_t width, size_t len)
{
    static uint8_t written[SHUFFLE_CALL_CAPACITY], again[SHUFFLE_CALL_CAPACITY];
    struct shuffle there = {direction, width, records, len,
                            len + (size_t)random_below(MOST_BEHIND)};
    uint64_t answer = check_shuffle_call(&there, written);
    there.out_len = random_out_len(len);
    check_shuffle_call(&there, NULL);
    if (is_marked_refusal(answer))
        return;
    struct shuffle back = {opposite(direction), width, written, len, len};
    check_shuffle_call(&back, again);
    check(memcmp(again, records, len) == 0,
          "%s, width %" PRIu32 ", %zu bytes: the other way does not give them back",
          shuffle_names[direction], width, len);
}

static void check_both_ways(uint32_t width, size_t len)
{
    for (enum direction d = FORWARD; d < DIRECTIONS; d++)
        check_way(d, width, len);
}

/* Mostly whole records, a few of them; else some bytes more or less. */
static size_t random_len(uint32_t width)
{
    size_t count = (size_t)random_below(random_below(16) == 0 ? EVERY_COUNT : 6);
    size_t len = count * record_len(width);
    switch (random_below(8)) {
    case 0: return len + 1 + (size_t)random_below(record_len(width));
    case 1: return len - (size_t)random_below(len + 1);
    default: return len;
    }
}

static void compare_random(uint32_t width)
{
    check_group("random records, width %" PRIu32, width);
    for (unsigned i = 0; i < RANDOM_CALLS; i++) {
        size_t len = random_len(width);
        random_pattern(records, len);
        check_both_ways(random_width(width), len);
    }
}

/* Every length from none on, by bytes, and then by records. */
static void compare_lengths(uint32_t width)
{
    size_t most = EVERY_LENGTH * record_len(width);
    check_group("records of 0 to %zu bytes, width %" PRIu32, most + 1, width);
    random_fill(records, sizeof records);
    for (size_t len = 0; len <= most + 1; len++)
        check_both_ways(width, len);
}

static void compare_counts(uint32_t width)
{
    static const size_t many[] = {255,  256,  257,  1023, 1024,
                                  1025, 1364, 1365, 2047, MOST_RECORDS};
    check_group("0 to %d records, width %" PRIu32, MOST_RECORDS, width);
    random_fill(records, sizeof records);
    for (size_t count = 0; count <= EVERY_COUNT; count++)
        check_both_ways(width, count * record_len(width));
    for (unsigned i = 0; i < sizeof many / sizeof many[0]; i++)
        check_both_ways(width, many[i] * record_len(width));
}

/* Every length of the output, from none to longer than the records. */
static void compare_outputs(enum direction direction, uint32_t width)
{
    check_group("outputs of every length, %s, width %" PRIu32, shuffle_names[direction],
                width);
    for (size_t count = 0; count <= 3; count++) {
        size_t len = count * record_len(width);
        random_fill(records, len);
        for (size_t out_len = 0; out_len <= len + MOST_BEHIND; out_len++)
            check_shuffle_call(&(struct shuffle){direction, width, records, len, out_len},
                               NULL);
    }
}

/* Each record goes by itself: what the archive writes for all is what it writes for those
   before a cut and for those behind it. */
static void compare_joined(enum direction direction, uint32_t width)
{
    static uint8_t all[EVERY_COUNT * RECORD_64], parts[EVERY_COUNT * RECORD_64];
    check_group("records in two calls, %s, width %" PRIu32, shuffle_names[direction],
                width);
    for (unsigned i = 0; i < JOINED; i++) {
        size_t count = (size_t)random_below(i % 16 == 0 ? EVERY_COUNT : 6);
        size_t len = count * record_len(width);
        size_t cut = (size_t)random_below(count + 1) * record_len(width);
        random_pattern(records, len);
        struct shuffle call = {direction, width, records, len, len};
        struct shuffle front = {direction, width, records, cut, cut};
        struct shuffle back = {direction, width, records + cut, len - cut, len - cut};
        check_shuffle_call(&call, all);
        check_shuffle_call(&front, parts);
        check_shuffle_call(&back, parts + cut);
        check(memcmp(all, parts, len) == 0, "%zu records, cut at %zu bytes", count, cut);
    }
}

/* ---------------- expected bytes, without the reference ---------------- */

/* Plain records and the shuffled ones, either from the other. */
static void check_pair(uint32_t width, const uint8_t *plain, const uint8_t *shuffled,
                       size_t len)
{
    static uint8_t written[SHUFFLE_CALL_CAPACITY];
    struct shuffle out = {FORWARD, width, plain, len, len + 1};
    struct shuffle back = {BACKWARD, width, shuffled, len, len + 1};
    uint64_t got = check_shuffle_call(&out, written);
    check(got == len && memcmp(written, shuffled, len) == 0,
          "width %" PRIu32 ", %zu bytes: shuffled otherwise", width, len);
    got = check_shuffle_call(&back, written);
    check(got == len && memcmp(written, plain, len) == 0,
          "width %" PRIu32 ", %zu bytes: another way back", width, len);
}

/* Where a byte of plain records stands when they are shuffled. */
static size_t shuffled_place(uint32_t width, size_t place)
{
    size_t in_record = place % record_len(width), word_len = width / 8;
    return place - in_record + in_record % word_len * 64 + in_record / word_len;
}

/* Bytes that tell their places: the lower byte of each place, and then the upper one. */
static void check_places_in(uint32_t width, size_t len)
{
    uint8_t plain[MOST_TOLD * RECORD_64], shuffled[MOST_TOLD * RECORD_64];
    for (unsigned shift = 0; shift <= 8; shift += 8) {
        for (size_t place = 0; place < len; place++) {
            plain[place] = (uint8_t)(place >> shift);
            shuffled[shuffled_place(width, place)] = (uint8_t)(place >> shift);
        }
        check_pair(width, plain, shuffled, len);
    }
}

static void check_places(uint32_t width)
{
    check_group("each byte at its place, width %" PRIu32, width);
    for (size_t count = 1; count <= MOST_TOLD; count++)
        check_places_in(width, count * record_len(width));
}

/* Each of the 256 values at each place of two records. */
static void check_values(uint32_t width)
{
    uint8_t plain[2 * RECORD_64], shuffled[2 * RECORD_64];
    size_t len = 2 * record_len(width);
    check_group("every value at every place, width %" PRIu32, width);
    for (unsigned value = 0; value < 256; value++) {
        for (size_t place = 0; place < len; place++) {
            plain[place] = (uint8_t)(value + 7 * place);
            shuffled[shuffled_place(width, place)] = plain[place];
        }
        check_pair(width, plain, shuffled, len);
    }
}

/* Words as numbers: byte j of word i is 64 * j + i, modulo 256, so that the shuffled record
   counts from 0. */
static void check_counting(uint32_t width)
{
    uint8_t plain[RECORD_64], shuffled[RECORD_64];
    size_t word_len = width / 8;
    check_group("a record that counts when shuffled, width %" PRIu32, width);
    for (size_t at = 0; at < record_len(width); at++) {
        uint64_t word = 0xC0804000C0804000 + 0x0101010101010101 * (at / word_len);
        plain[at] = (uint8_t)(word >> 8 * (at % word_len));
        shuffled[at] = (uint8_t)at;
    }
    check_pair(width, plain, shuffled, record_len(width));
}

/* ---------------- refusals ---------------- */

/* A call that is no success may claim lengths that no buffer has. */
static bool can_be_made(const struct shuffle *call)
{
    bool lent = call->records_len <= SHUFFLE_CALL_CAPACITY &&
                call->out_len <= SHUFFLE_CALL_CAPACITY;
    bool known = call->width == 32 || call->width == 64;
    return lent || !known || call->records_len % record_len(call->width) != 0 ||
           call->out_len < call->records_len;
}

#define OVER_32 ((uint64_t)1 << 32)

/* Around records and their parts, 264 for width 33, and around 2^32. Of the last ones 2^63
   and SIZE_MAX - 511 are whole records at both widths, and SIZE_MAX - 255 at width 32
   alone. */
static const size_t lens[] = {
    0, 1, 31, 32, 64, 128, 255, 256, 257, 264, 511, 512, 513, 768, 1024,
    OVER_32 - 256, OVER_32, OVER_32 + 1, OVER_32 + 512,
    (size_t)1 << 63, SIZE_MAX - 511, SIZE_MAX - 255, SIZE_MAX,
};

/* Records and outputs of all these lengths, in every combination. */
static void compare_refusals(uint32_t width)
{
    enum { N = sizeof lens / sizeof lens[0] };
    for (unsigned i = 0; i < DIRECTIONS * N * N; i++) {
        struct shuffle call = {(enum direction)(i / (N * N)), width, records,
                               lens[i / N % N], lens[i % N]};
        if (can_be_made(&call))
            check_shuffle_call(&call, NULL);
    }
}

static void compare_widths(void)
{
    static const uint32_t others[] = {0x80000020, 0x80000040, 0x00010020,
                                      0x00010040, 0x20000000, 0xFFFFFFFF};
    check_group("refusals in every combination, widths of all kinds");
    random_fill(records, 1024);
    for (uint32_t width = 0; width <= SMALL_WIDTHS; width++)
        compare_refusals(width);
    for (unsigned i = 0; i < sizeof others / sizeof others[0]; i++)
        compare_refusals(others[i]);
    for (unsigned i = 0; i < RANDOM_WIDTHS; i++)
        compare_refusals(i % 3 == 0 ? (uint32_t)random_word()
                                    : 32u * (i % 3) ^ 1u << i / 3 % 32);
}

struct point {
    const char *what;
    uint32_t width;
    size_t records_len, out_len;
    uint64_t answer;
};

#define MARKED(number) (((uint64_t)1 << 63) + ((uint64_t)(number) << 32))

/* Answers as numbers, without the reference; they are the same either way. */
static const struct point points[] = {
    {"no records and no output", 32, 0, 0, 0},
    {"no records, wide", 64, 0, 10, 0},
    {"a record and just its output", 32, 256, 256, 256},
    {"a record and more output", 64, 512, 600, 512},
    {"three records", 32, 768, 769, 768},
    {"three records, wide", 64, 1536, 1536, 1536},
    {"the records of 1,365 commands", 32, 349440, 349440, 349440},
    {"the same, wide", 64, 698880, 698880, 698880},
    {"the records of 2,048 commands, wide", 64, 1048576, 1048577, 1048576},
    {"an output one byte short", 32, 256, 255, MARKED(4)},
    {"no output", 64, 512, 0, MARKED(4)},
    {"an output one record short", 32, 768, 512, MARKED(4)},
    {"an output of the other width's record", 64, 512, 256, MARKED(4)},
    {"2^32 bytes, no output", 32, OVER_32, 0, MARKED(4)},
    {"2^32 bytes more than the output", 32, OVER_32 + 256, 256, MARKED(4)},
    {"the same, wide", 64, OVER_32 + 512, 1024, MARKED(4)},
    {"2^63 bytes", 64, (size_t)1 << 63, 512, MARKED(4)},
    {"the most bytes", 32, SIZE_MAX - 255, 256, MARKED(4)},
    {"one byte", 32, 1, 1, MARKED(16)},
    {"one byte, no output", 64, 1, 0, MARKED(16)},
    {"a byte less than a record", 32, 255, 256, MARKED(16)},
    {"a byte more, short output", 64, 513, 512, MARKED(16)},
    {"one vector", 32, 32, 32, MARKED(16)},
    {"one vector, wide", 64, 64, 64, MARKED(16)},
    {"four vectors", 32, 128, 128, MARKED(16)},
    {"a record of the other width", 64, 256, 256, MARKED(16)},
    {"a record and a half, wide", 64, 768, 0, MARKED(16)},
    {"a byte more than 2^32", 32, OVER_32 + 1, 256, MARKED(16)},
    {"any length and any output", 64, SIZE_MAX, SIZE_MAX, MARKED(16)},
    {"width", 33, 256, 256, MARKED(5)},
    {"width and a record of it", 33, 264, 264, MARKED(5)},
    {"width 0, nothing lent", 0, 0, 0, MARKED(5)},
    {"width 0, a record", 0, 256, 256, MARKED(5)},
    {"width and no output", 16, 256, 0, MARKED(5)},
    {"width and length", 128, 1, 1, MARKED(5)},
    {"width, length and output", 96, 257, 256, MARKED(5)},
    {"width and any lengths", 65, SIZE_MAX, SIZE_MAX, MARKED(5)},
    {"a width with another bit", 0x80000020, 256, 256, MARKED(5)},
    {"a width with 2^16 more", 0x00010040, 512, 512, MARKED(5)},
};

static void check_points(void)
{
    enum { N = sizeof points / sizeof points[0] };
    check_group("answers as numbers");
    for (unsigned n = 0; n < DIRECTIONS * N; n++) {
        const struct point *p = &points[n % N];
        struct shuffle call = {(enum direction)(n / N), p->width, records, p->records_len,
                               p->out_len};
        uint64_t got = check_shuffle_call(&call, NULL);
        check(got == p->answer, "%s, %s: answered %" PRIx64, shuffle_names[call.direction],
              p->what, got);
    }
}

int main(int argc, char **argv)
{
    check_program("compare_shuffle", argc, argv);
    for (unsigned i = 0; i < 2; i++) {
        compare_random(widths[i]);
        compare_lengths(widths[i]);
        compare_counts(widths[i]);
        for (enum direction d = FORWARD; d < DIRECTIONS; d++) {
            compare_outputs(d, widths[i]);
            compare_joined(d, widths[i]);
        }
        check_places(widths[i]);
        check_values(widths[i]);
        check_counting(widths[i]);
    }
    compare_widths();
    check_points();
    return check_finish();
}
