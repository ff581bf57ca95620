/*
 * The flipped bits of pairs of digests by the archive against the reference, and against
 * what was flipped in the pairs.
 */
#include <inttypes.h>
#include <stdbool.h>
#include <string.h>

#include "edonr.h"
#include "harness/check.h"
#include "harness/flips_call.h"
#include "harness/random.h"

enum {
    RANDOM_CALLS = 40000,
    EVERY_LENGTH = 6, /* records, up to which every length is tried */
    EVERY_LIST = 12,  /* records, with lists of every length */
    JOINED = 2000,
    ROUNDS = 8,
    DIGEST = PAIR / 2,
    BITS = 8 * DIGEST,       /* of a digest */
    MOST_BYTES = 65536,      /* of the records that a call accepts */
    MOST_BEHIND = 40,        /* counts of a list behind those of the records */
    MOST_MESSAGE = 1024 / 8, /* bytes, of which each bit makes a record */
    BYTE_PAIRS = 256 * 256
};

/* The records that are lent, and of each the number of bits in which its digests were made
   to differ. */
static uint8_t records[FLIPS_CALL_RECORDS];
static uint16_t flipped[MOST_PAIRS];

/* ---------------- against the reference ---------------- */

static void check_list(size_t len, size_t counts_len)
{
    struct flips flips = {records, len, counts_len};
    check_flips_call(&flips, NULL);
}

/* Records with lists around their number, with none, and with longer ones. */
static void check_lists(size_t len)
{
    size_t count = len / PAIR;
    check_list(len, 0);
    if (count > 0)
        check_list(len, count - 1);
    check_list(len, count);
    check_list(len, count + 1);
    check_list(len, MOST_PAIRS);
    check_list(len, FLIPS_CALL_COUNTS);
}

/* Mostly whole records, a few of them; else some bytes more or less. */
static size_t random_len(void)
{
    size_t count = (size_t)random_below(random_below(32) == 0 ? MOST_PAIRS + 20 : 8);
    size_t len = count * PAIR;
    switch (random_below(8)) {
    case 0: return len + 1 + (size_t)random_below(PAIR);
    case 1: return len - (size_t)random_below(len + 1);
    default: return len;
    }
}

/* Mostly as long as the records need, or longer. */
static size_t random_counts_len(size_t count)
{
    switch (random_below(6)) {
    case 0: return (size_t)random_below(count + 1);
    case 1: return count > 0 ? count - 1 : 0;
    case 2: return count;
    default: return count + (size_t)random_below(MOST_BEHIND);
    }
}

static void compare_random(void)
{
    check_group("random records");
    for (unsigned i = 0; i < RANDOM_CALLS; i++) {
        size_t len = random_len();
        random_pattern(records, len);
        check_list(len, random_counts_len(len / PAIR));
    }
}

/* Every length from none on, and around the longest. */
static void compare_lengths(void)
{
    check_group("records of every length");
    random_fill(records, sizeof records);
    for (size_t len = 0; len <= EVERY_LENGTH * PAIR + 1; len++)
        check_lists(len);
    for (size_t len = MOST_BYTES - 2 * PAIR - 1; len <= MOST_BYTES + 2 * PAIR + 1; len++)
        check_lists(len);
    for (size_t len = 2 * MOST_BYTES - 1; len <= 2 * MOST_BYTES + 1; len++)
        check_lists(len);
}

/* Every number of records that is accepted, and on to twice the most. */
static void compare_counts(void)
{
    check_group("0 to %d records", 2 * MOST_PAIRS);
    random_fill(records, sizeof records);
    for (size_t count = 0; count <= 2 * MOST_PAIRS; count++)
        check_lists(count * PAIR);
}

/* Lists of every length, from none to longer than the records need. */
static void compare_lists(void)
{
    check_group("lists of every length");
    random_fill(records, MOST_BYTES);
    for (size_t count = 0; count <= EVERY_LIST; count++)
        for (size_t counts_len = 0; counts_len <= count + MOST_BEHIND; counts_len++)
            check_list(count * PAIR, counts_len);
    for (size_t counts_len = 0; counts_len <= MOST_PAIRS + MOST_BEHIND; counts_len++)
        check_list(MOST_BYTES, counts_len);
}

/* ---------------- against what was flipped ---------------- */

/* The first count records, whose flipped bits are known. Returns the archive's answer. */
static uint64_t check_flipped(size_t count)
{
    uint16_t written[MOST_PAIRS];
    uint64_t sum = 0;
    struct flips flips = {records, count * PAIR, count + (size_t)random_below(MOST_BEHIND)};
    uint64_t got = check_flips_call(&flips, written);
    for (size_t i = 0; i < count; i++)
        sum += flipped[i];
    check(got == sum, "%zu records: answered %" PRIx64 ", flipped %" PRIx64, count, got,
          sum);
    check(memcmp(written, flipped, count * sizeof flipped[0]) == 0,
          "%zu records: other counts", count);
    return got;
}

/* Random digests, each twice. */
static void make_equal(size_t count)
{
    for (size_t i = 0; i < count; i++) {
        random_fill(records + i * PAIR, DIGEST);
        memcpy(records + i * PAIR + DIGEST, records + i * PAIR, DIGEST);
        flipped[i] = 0;
    }
}

static void toggle(uint8_t *bytes, size_t bit)
{
    bytes[bit / 8] ^= (uint8_t)(1u << bit % 8);
}

/* Flips a bit of a record in which its digests agree. The bits of a record are numbered
   from 0, those of its first digest first. */
static void flip(size_t number, size_t bit)
{
    toggle(records + number * PAIR, bit);
    flipped[number]++;
}

/* The same of a bit in which they differ. */
static void flip_back(size_t number, size_t bit)
{
    toggle(records + number * PAIR, bit);
    flipped[number]--;
}

/* Flips so many bits of a record whose digests are equal, any of them, in either digest. */
static void flip_some(size_t number, uint64_t some)
{
    for (unsigned bit = 0; bit < BITS; bit++) {
        if (random_below(BITS - bit) < some) {
            flip(number, bit + BITS * (size_t)random_below(2));
            some--;
        }
    }
}

/* Records of which each differs in as many bits. */
static void make_alike(size_t count, uint64_t bits)
{
    make_equal(count);
    for (size_t i = 0; i < count; i++)
        flip_some(i, bits);
}

/* A record alone and several that differ in 0 to 256 bits, and one of each kind together,
   with one more bit from record to record and with one less. */
static void check_every_number(void)
{
    check_group("every number of flipped bits");
    for (unsigned bits = 0; bits <= BITS; bits++) {
        size_t count = 2 + (size_t)random_below(20);
        make_alike(count, bits);
        check_flipped(1);
        check_flipped(count);
    }
    for (unsigned round = 0; round < ROUNDS; round++) {
        make_equal(BITS + 1);
        for (unsigned i = 0; i <= BITS; i++)
            flip_some(i, round % 2 == 0 ? i : BITS - i);
        check_flipped(BITS + 1);
    }
}

/* Each bit of either digest, of each of five records: the only one that is flipped, and the
   only one that is not. */
static void check_single_bits(void)
{
    enum { COUNT = 5 };
    check_group("each bit of a record by itself");
    for (size_t i = 0; i < COUNT * 2 * BITS; i++) {
        size_t number = i / (2 * BITS), bit = i % (2 * BITS);
        make_equal(COUNT);
        flip(number, bit);
        check_flipped(COUNT);
        make_alike(COUNT, BITS);
        flip_back(number, bit);
        check_flipped(COUNT);
    }
}

/* In the most records a single bit each, another from record to record, so that each bit is
   flipped in two of them. */
static void check_bits_of_most(void)
{
    check_group("each bit in turn, the most records");
    for (size_t shift = 0; shift < 2 * BITS; shift += 37) {
        make_equal(MOST_PAIRS);
        for (size_t i = 0; i < MOST_PAIRS; i++)
            flip(i, (i + shift) % (2 * BITS));
        check_flipped(MOST_PAIRS);
    }
}

/* Every number of records: all bits of each flipped, none, and any number of them. */
static void check_numbers(void)
{
    check_group("all bits flipped, none and some, 0 to %d records", MOST_PAIRS);
    for (unsigned kind = 0; kind < 3; kind++) {
        make_alike(MOST_PAIRS, kind == 0 ? BITS : 0);
        for (size_t i = 0; kind == 2 && i < MOST_PAIRS; i++)
            flip_some(i, random_below(BITS + 1));
        for (size_t count = 0; count <= MOST_PAIRS; count++)
            check_flipped(count);
    }
}

/* What the archive counts in all records is what it counts in those before a cut and in
   those behind it. */
static void check_joined(void)
{
    uint16_t all[MOST_PAIRS], parts[MOST_PAIRS];
    check_group("records in two calls");
    for (unsigned i = 0; i < JOINED; i++) {
        size_t count = (size_t)random_below(i % 32 == 0 ? MOST_PAIRS + 1 : 9);
        size_t cut = (size_t)random_below(count + 1);
        struct flips whole = {records, count * PAIR, count};
        struct flips front = {records, cut * PAIR, cut};
        struct flips back = {records + cut * PAIR, (count - cut) * PAIR, count - cut};
        random_pattern(records, count * PAIR);
        uint64_t sum = check_flips_call(&whole, all);
        uint64_t sums = check_flips_call(&front, parts);
        sums += check_flips_call(&back, parts + cut);
        check(sum == sums && memcmp(all, parts, count * sizeof all[0]) == 0,
              "%zu records, cut behind %zu", count, cut);
    }
}

/* ---------------- against counts by bytes ---------------- */

/* Of the exclusive or of two bytes the lowest one is cleared until none is left. */
static uint16_t count_by_bytes(const uint8_t *record)
{
    uint16_t count = 0;
    for (unsigned i = 0; i < DIGEST; i++)
        for (unsigned ones = record[i] ^ record[DIGEST + i]; ones != 0; ones &= ones - 1)
            count++;
    return count;
}

/* The first count records, whatever they are. Returns the archive's answer. */
static uint64_t check_by_bytes(size_t count)
{
    for (size_t i = 0; i < count; i++)
        flipped[i] = count_by_bytes(records + i * PAIR);
    return check_flipped(count);
}

/* Every two values of a byte, at every place of a digest. */
static void check_byte_pairs(void)
{
    check_group("every two bytes at every place");
    for (unsigned first = 0; first < BYTE_PAIRS; first += MOST_PAIRS) {
        for (unsigned i = 0; i < MOST_PAIRS * DIGEST; i++) {
            unsigned place = i % DIGEST, pair = first + i / DIGEST + 2749 * place;
            uint8_t *record = records + i / DIGEST * PAIR;
            record[place] = (uint8_t)pair;
            record[DIGEST + place] = (uint8_t)(pair >> 8);
        }
        check_by_bytes(MOST_PAIRS);
    }
}

/* ---------------- the avalanche, source document 001, section 3.10 ---------------- */

/* The digests of a message and of the same with one bit flipped, for each of its bits. Half
   of a digest's bits flip on an average; the sum of these counts stays within eight times
   its standard deviation, which is 8 for one record. */
static void check_digests_of(uint8_t *message, size_t len)
{
    size_t count = 8 * len;
    uint64_t made = 0;
    for (size_t bit = 0; bit < count; bit++) {
        uint8_t *record = records + bit * PAIR;
        made += edonr_digest(256, message, len, record, DIGEST);
        toggle(message, bit);
        made += edonr_digest(256, message, len, record + DIGEST, DIGEST);
        toggle(message, bit);
    }
    check(made == count * PAIR, "%zu bytes: %" PRIu64 " bytes of digests", len, made);
    uint64_t sum = check_by_bytes(count), half = count * BITS / 2;
    uint64_t off = sum < half ? half - sum : sum - half;
    check(off * off <= 64 * 64 * count,
          "%zu bytes: the sum is %" PRIu64 " off half of the bits", len, off);
}

static void check_digests(void)
{
    uint8_t zeros[MOST_MESSAGE] = {0}, message[MOST_MESSAGE];
    check_group("digests of messages with one bit flipped");
    for (size_t len = 1; len <= MOST_MESSAGE; len++) {
        random_fill(message, len);
        check_digests_of(zeros, len);
        check_digests_of(message, len);
    }
}

/* The first entry of Table 3.10 a: of the product of zeros and of those with one of the 512
   bits of both operands flipped, the distance is 15 to 50, on an average 28.86. */
static void check_products(void)
{
    uint8_t operands[2 * 32] = {0};
    uint16_t counts[2 * BITS], least = BITS, most = 0;
    struct flips flips = {records, 2 * BITS * PAIR, 2 * BITS};
    check_group("products of zeros with one bit flipped");
    for (size_t bit = 0; bit < 2 * BITS; bit++) {
        uint8_t *record = records + bit * PAIR;
        edonr_product(32, operands, 32, operands + 32, 32, record, DIGEST);
        toggle(operands, bit);
        edonr_product(32, operands, 32, operands + 32, 32, record + DIGEST, DIGEST);
        toggle(operands, bit);
    }
    uint64_t sum = check_flips_call(&flips, counts);
    for (size_t i = 0; i < 2 * BITS; i++) {
        least = counts[i] < least ? counts[i] : least;
        most = counts[i] > most ? counts[i] : most;
    }
    check(least == 15 && most == 50, "distances of %u to %u", least, most);
    check((100 * sum + BITS) / (2 * BITS) == 2886, "distances of %" PRIu64 " in all", sum);
}

/* ---------------- refusals ---------------- */

#define OVER_32 ((uint64_t)1 << 32)

/* Around digests and records, around the longest and around 2^32. Of the last ones 2^63 and
   SIZE_MAX - 63 are whole records. */
static const size_t lens[] = {
    0, 1, 31, 32, 33, 63, 64, 65, 96, 128, 192,
    65472, 65504, 65535, 65536, 65537, 65568, 65599, 65600, 65601, 65664, 131072,
    OVER_32, OVER_32 + 1, OVER_32 + 64, OVER_32 + 65536,
    (size_t)1 << 63, SIZE_MAX - 63, SIZE_MAX,
};

static const size_t list_lens[] = {
    0, 1, 2, 3, 512, 1023, 1024, 1025, 1026, 2048,
    OVER_32, OVER_32 + 1, (size_t)1 << 63, SIZE_MAX,
};

/* A list that is only claimed goes with records that are refused. */
static bool can_be_made(size_t len, size_t counts_len)
{
    return counts_len <= FLIPS_CALL_COUNTS || len % PAIR != 0 || len > MOST_BYTES;
}

/* Records and lists of all these lengths, in every combination. */
static void compare_refusals(void)
{
    enum { N = sizeof lens / sizeof lens[0], M = sizeof list_lens / sizeof list_lens[0] };
    check_group("refusals in every combination");
    random_fill(records, sizeof records);
    for (unsigned i = 0; i < N * M; i++)
        if (can_be_made(lens[i / M], list_lens[i % M]))
            check_list(lens[i / M], list_lens[i % M]);
}

struct point {
    const char *what;
    size_t records_len, counts_len;
    uint64_t answer;
};

#define REFUSED(number) ((uint64_t)(number) << 32)

/* Answers as numbers, without the reference, for records of which all bits are flipped. */
static const struct point points[] = {
    {"no records and no list", 0, 0, 0},
    {"no records and a list", 0, 5, 0},
    {"a record and just its count", 64, 1, 256},
    {"a record and a longer list", 64, 9, 256},
    {"three records", 192, 3, 768},
    {"255 records", 16320, 255, 65280},
    {"256 records", 16384, 256, 65536},
    {"257 records", 16448, 2000, 65792},
    {"one record less than the most", 65472, 1023, 261888},
    {"the most records", 65536, 1024, 262144},
    {"the most records and a longer list", 65536, 2049, 262144},
    {"a record and no list", 64, 0, REFUSED(4)},
    {"two records and one count", 128, 1, REFUSED(4)},
    {"the most records and no list", 65536, 0, REFUSED(4)},
    {"the most records and half a list", 65536, 512, REFUSED(4)},
    {"the most records, one count short", 65536, 1023, REFUSED(4)},
    {"one byte", 1, 1, REFUSED(19)},
    {"one byte and no list", 1, 0, REFUSED(19)},
    {"one digest", 32, 1, REFUSED(19)},
    {"three digests", 96, 2, REFUSED(19)},
    {"a byte less than a record", 63, 1, REFUSED(19)},
    {"a byte more", 65, 2, REFUSED(19)},
    {"a byte more and no list", 65, 0, REFUSED(19)},
    {"a byte less than the most", 65535, 1024, REFUSED(19)},
    {"a byte less, one count short", 65535, 1022, REFUSED(19)},
    {"a byte more than the most", 65537, 1025, REFUSED(19)},
    {"a digest more", 65568, 1025, REFUSED(19)},
    {"a record more", 65600, 1025, REFUSED(19)},
    {"a record more, one count short", 65600, 1024, REFUSED(19)},
    {"a record more and no list", 65600, 0, REFUSED(19)},
    {"twice the most", 131072, 2048, REFUSED(19)},
    {"2^32 bytes", OVER_32, 2048, REFUSED(19)},
    {"2^32 bytes and a record", OVER_32 + 64, 1, REFUSED(19)},
    {"2^32 bytes more than the most", OVER_32 + 65536, 1024, REFUSED(19)},
    {"2^63 bytes", (size_t)1 << 63, 2048, REFUSED(19)},
    {"the most bytes of whole records", SIZE_MAX - 63, SIZE_MAX, REFUSED(19)},
    {"any length and any list", SIZE_MAX, SIZE_MAX, REFUSED(19)},
};

static void check_points(void)
{
    check_group("answers as numbers");
    for (size_t at = 0; at < sizeof records; at++)
        records[at] = at / DIGEST % 2 == 0 ? 0x5A : 0xA5;
    for (unsigned i = 0; i < sizeof points / sizeof points[0]; i++) {
        const struct point *p = &points[i];
        struct flips flips = {records, p->records_len, p->counts_len};
        uint64_t got = check_flips_call(&flips, NULL);
        check(got == p->answer, "%s: answered %" PRIx64, p->what, got);
    }
    check(EDONR_REFUSED_PAIRS == 19 && EDONR_PAIR_BYTES == 64 && EDONR_PAIRS_MAX == 1024,
          "the header's numbers");
}

int main(int argc, char **argv)
{
    check_program("compare_flips", argc, argv);
    compare_random();
    compare_lengths();
    compare_counts();
    compare_lists();
    check_every_number();
    check_single_bits();
    check_bits_of_most();
    check_numbers();
    check_joined();
    check_byte_pairs();
    check_digests();
    check_products();
    compare_refusals();
    check_points();
    return check_finish();
}
