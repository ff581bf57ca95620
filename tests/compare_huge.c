/*
 * Messages past 2^29 and 2^32 bytes against the reference, in one call, in pieces and with
 * bits behind, joined messages and records of more than 2^32 bytes, a list of more than
 * 2^32 lengths, and outputs of more than 2^32 bytes or counts. At 2^29 bytes the length in
 * bits passes 32 bits, at 2^32 the length in bytes does.
 *
 * The message is a megabyte of random bytes that is mapped again and again, so it takes
 * no more memory than that. The period is no power of two, and so a place in the message
 * that is cut off at 32 bits has other bytes. The reference hashes the message once a
 * size, and is finished at each mark. Joined messages and records are the front of the
 * message.
 */
#define _DEFAULT_SOURCE

#include <inttypes.h>
#include <stdbool.h>
#include <stdio.h>
#include <stdlib.h>
#include <string.h>
#include <sys/mman.h>
#include <unistd.h>

#include "edonr.h"
#include "harness/check.h"
#include "harness/hash_call.h"
#include "harness/lent.h"
#include "harness/product_call.h"
#include "harness/random.h"
#include "harness/sheet_maker.h"
#include "harness/shuffle_call.h"
#include "reference/digest.h"
#include "reference/digests.h"
#include "reference/division.h"
#include "reference/flips.h"
#include "reference/hash.h"
#include "reference/sheet.h"

#define AT_29 ((uint64_t)1 << 29)
#define AT_32 ((uint64_t)1 << 32)

enum { MARKS = 5, PERIOD_PAGES = 257, MOST_OUT = 80, SEEN_OUT = 4096 };

static uint64_t marks[MARKS];
static size_t period;
static const uint8_t *message;
static struct lent out;

static void stop_unless(bool done)
{
    if (done)
        return;
    perror("compare_huge");
    exit(2);
}

/* Around 2^29, at random below it, and so that the last piece has over 2^32 bytes. */
static void choose_marks(void)
{
    marks[0] = AT_29 / 32 + random_below(AT_29 / 2);
    marks[1] = AT_29 - 1;
    marks[2] = AT_29;
    marks[3] = AT_29 + 3;
    marks[4] = AT_29 + AT_32 + 4 + random_below(300);
}

/* A file of one period, that has no name. */
static FILE *period_file(void)
{
    uint8_t *bytes = malloc(period);
    FILE *file = tmpfile();
    stop_unless(bytes != NULL && file != NULL);
    random_fill(bytes, period);
    stop_unless(fwrite(bytes, 1, period, file) == period && fflush(file) == 0);
    free(bytes);
    return file;
}

/* So many bytes, or some more, of which each period is the same memory. */
static uint8_t *map_periods(size_t len, int protection)
{
    size_t whole = (len + period - 1) / period * period;
    FILE *file = period_file();
    uint8_t *mapped =
        mmap(NULL, whole, PROT_NONE, MAP_PRIVATE | MAP_ANONYMOUS | MAP_NORESERVE, -1, 0);
    stop_unless(mapped != MAP_FAILED);
    for (size_t at = 0; at < whole; at += period)
        stop_unless(mmap(mapped + at, period, protection, MAP_SHARED | MAP_FIXED,
                         fileno(file), 0) != MAP_FAILED);
    fclose(file);
    return mapped;
}

/* The archive's digest in one call; digest is the reference's. */
static void check_one_call(uint32_t size, size_t len, const uint8_t digest[64])
{
    uint8_t after[MOST_OUT];
    random_fill(after, sizeof after);
    lent_place(&out, after, sizeof after);
    memcpy(after, digest, size / 8);
    uint64_t got = edonr_digest(size, message, len, out.bytes, sizeof after);
    check(got == size / 8 && lent_holds(&out, after),
          "size %" PRIu32 ", %zu bytes in one call: answered %" PRIx64, size, len, got);
}

/* Fed from mark to mark, from one of them on, with the digests of both ways at each, and
   those with bits behind. */
static void compare_size(enum kind kind, uint32_t size, unsigned first)
{
    union hash hash;
    uint8_t digest[64];
    uint64_t fed = 0;
    check_group("messages of up to %" PRIu64 " bytes, size %" PRIu32, marks[MARKS - 1],
                size);
    random_fill((uint8_t *)&hash, sizeof hash);
    check_open_call(kind, &hash, size);
    for (unsigned i = first; i < MARKS; i++) {
        check_feed_in_place(kind, &hash, message + fed, (size_t)(marks[i] - fed));
        check_finish_call(kind, &hash, sizeof digest, NULL);
        for (uint32_t count = 0; count < 8; count++)
            check_finish_bits_call(kind, &hash, (uint8_t)random_word(), count,
                                   sizeof digest, NULL);
        if (kind == NARROW)
            reference_finish_32(&hash.narrow, digest, sizeof digest);
        else
            reference_finish_64(&hash.wide, digest, sizeof digest);
        check_one_call(size, (size_t)marks[i], digest);
        fed = marks[i];
    }
}

/* ---------------- outputs ---------------- */

static uint8_t *huge_out;
static uint8_t want_out[SEEN_OUT];

/* Of an output of over 2^32 bytes or counts the front is looked at; the rest is never
   touched. Cut off at 32 bits its length would be too short for any call. */
static size_t prepare_out(void)
{
    random_fill(want_out, sizeof want_out);
    memcpy(huge_out, want_out, sizeof want_out);
    return (size_t)(AT_32 + random_below(28));
}

static void check_out(const char *name, unsigned number, uint64_t got, uint64_t want)
{
    check(got == want && memcmp(huge_out, want_out, sizeof want_out) == 0,
          "%s, %u: answered %" PRIx64 ", expected %" PRIx64, name, number, got, want);
}

static void compare_operation(const struct operation *operation, uint32_t width)
{
    size_t len = prepare_out();
    uint64_t want =
        operation->reference(width, message, width, message + 64, width, want_out, len);
    uint64_t got =
        operation->archive(width, message, width, message + 64, width, huge_out, len);
    check_out(operation->name, width, got, want);
}

static void compare_digest(uint32_t size)
{
    size_t len = prepare_out();
    uint64_t want = reference_digest(size, message, 100, want_out, len);
    uint64_t got = edonr_digest(size, message, 100, huge_out, len);
    check_out("digest", size, got, want);
}

static void compare_digests(uint32_t size)
{
    static const uint32_t lengths[] = {100, 0, 200};
    size_t len = prepare_out();
    uint64_t want = reference_digests(size, message, 300, lengths, 3, want_out, len);
    uint64_t got = edonr_digests(size, message, 300, lengths, 3, huge_out, len);
    check_out("digests", size, got, want);
}

static void compare_finish(enum kind kind, uint32_t size)
{
    union hash hash;
    random_fill((uint8_t *)&hash, sizeof hash);
    set_hash(kind, &hash, size, random_bits(61));
    size_t len = prepare_out();
    const void *lent = &hash;
    uint64_t want = kind == NARROW ? reference_finish_32(&hash.narrow, want_out, len)
                                   : reference_finish_64(&hash.wide, want_out, len);
    uint64_t got = kind == NARROW ? edonr_narrow_finish(lent, huge_out, len)
                                  : edonr_wide_finish(lent, huge_out, len);
    check_out("finishing", size, got, want);
}

static void compare_finish_bits(enum kind kind, uint32_t size)
{
    union hash hash;
    random_fill((uint8_t *)&hash, sizeof hash);
    set_hash(kind, &hash, size, random_bits(61));
    size_t len = prepare_out();
    const void *lent = &hash;
    uint64_t want = kind == NARROW
                        ? reference_finish_bits_32(&hash.narrow, 0xA5, 5, want_out, len)
                        : reference_finish_bits_64(&hash.wide, 0xA5, 5, want_out, len);
    uint64_t got = kind == NARROW ? edonr_narrow_finish_bits(lent, 0xA5, 5, huge_out, len)
                                  : edonr_wide_finish_bits(lent, 0xA5, 5, huge_out, len);
    check_out("finishing with bits", size, got, want);
}

static void compare_inverse_sheet(uint32_t width)
{
    static struct sheet sheet;
    make_sheet(width, SEEN_OUT / 2, &sheet);
    size_t len = prepare_out();
    uint64_t want = reference_inverse_sheet(width, sheet.bytes, sheet.len, want_out, len);
    uint64_t got = edonr_inverse_sheet(width, sheet.bytes, sheet.len, huge_out, len);
    check_out("inverse sheet", width, got, want);
}

static void compare_shuffle(enum direction direction, uint32_t width)
{
    size_t len = prepare_out(), records_len = 2 * EDONR_PLACES * (size_t)width;
    uint64_t want =
        reference_shuffles[direction](width, message, records_len, want_out, len);
    uint64_t got = archive_shuffles[direction](width, message, records_len, huge_out, len);
    check_out(shuffle_names[direction], width, got, want);
}

/* More records than the list has counts, if its length is cut off at 32 bits. */
static void compare_flipped_bits(void)
{
    enum { COUNT = 100, PAIRS_LEN = COUNT * EDONR_PAIR_BYTES };
    uint16_t counts[COUNT];
    size_t len = prepare_out();
    void *list = huge_out;
    uint64_t want = reference_flipped_bits(message, PAIRS_LEN, counts, len);
    uint64_t got = edonr_flipped_bits(message, PAIRS_LEN, list, len);
    memcpy(want_out, counts, sizeof counts);
    check_out("flipped bits", COUNT, got, want);
}

/* The output has room for over 2^32 counts too, which take two bytes each. */
static void compare_outputs(void)
{
    check_group("outputs of over 2^32 bytes or counts");
    huge_out = mmap(NULL, (size_t)(2 * AT_32 + SEEN_OUT), PROT_READ | PROT_WRITE,
                    MAP_PRIVATE | MAP_ANONYMOUS | MAP_NORESERVE, -1, 0);
    stop_unless(huge_out != MAP_FAILED);
    for (unsigned i = 0; i < OPERATIONS; i++) {
        compare_operation(&operations[i], 32);
        compare_operation(&operations[i], 64);
    }
    compare_inverse_sheet(32);
    compare_inverse_sheet(64);
    for (enum direction d = FORWARD; d < DIRECTIONS; d++) {
        compare_shuffle(d, 32);
        compare_shuffle(d, 64);
    }
    compare_flipped_bits();
    for (unsigned i = 0; i < 4; i++) {
        compare_digest(kind_sizes[i / 2][i % 2]);
        compare_digests(kind_sizes[i / 2][i % 2]);
        compare_finish((enum kind)(i / 2), kind_sizes[i / 2][i % 2]);
        compare_finish_bits((enum kind)(i / 2), kind_sizes[i / 2][i % 2]);
    }
}

/* ---------------- joined messages ---------------- */

/* Two messages of over 2^31 bytes, so that those behind them start past 2^32. */
static void compare_joined(void)
{
    enum { COUNT = 5 };
    uint32_t lengths[COUNT] = {(1u << 31) + 300, (1u << 31) + 5, 1000, 0, 129};
    size_t len = prepare_out(), joined = 0;
    lengths[0] += (uint32_t)random_below(300);
    for (unsigned k = 0; k < COUNT; k++)
        joined += lengths[k];
    check_group("joined messages of %zu bytes", joined);
    uint64_t want = reference_digests(512, message, joined, lengths, COUNT, want_out, len);
    uint64_t got = edonr_digests(512, message, joined, lengths, COUNT, huge_out, len);
    check_out("digests", 512, got, want);
}

/* A list of just over 2^32 lengths, none of which can be read: it is refused unread. Cut
   off at 32 bits its length would be one that is accepted. */
static void compare_long_list(void)
{
    size_t over = (size_t)random_below(EDONR_MESSAGES_MAX), count = (size_t)AT_32 + over;
    check_group("a list of %zu lengths", count);
    void *list = mmap(NULL, count * sizeof(uint32_t), PROT_NONE,
                      MAP_PRIVATE | MAP_ANONYMOUS | MAP_NORESERVE, -1, 0);
    stop_unless(list != MAP_FAILED);
    for (unsigned i = 0; i < 4; i++) {
        uint32_t size = kind_sizes[i / 2][i % 2];
        size_t len = prepare_out();
        uint64_t want = reference_digests(size, message, 0, list, count, want_out, len);
        uint64_t got = edonr_digests(size, message, 0, list, count, huge_out, len);
        check_out("digests", size, got, want);
    }
    munmap(list, count * sizeof(uint32_t));
}

/* ---------------- records ---------------- */

enum { TAIL = 1 << 17, RECORDS_OVER = 5, BEHIND = 100 };

/* An output for records of 2^32 bytes and some more. All but its tail has the records' own
   period, so that it takes little memory and what is written to one place is the same each
   time. The tail begins before 2^32 bytes and is memory of its own, which nothing else
   fills. */
static uint8_t *map_records_out(size_t tail_at)
{
    uint8_t *mapped = map_periods(tail_at + TAIL, PROT_READ | PROT_WRITE);
    stop_unless(mmap(mapped + tail_at, TAIL, PROT_READ | PROT_WRITE,
                     MAP_PRIVATE | MAP_ANONYMOUS | MAP_FIXED, -1, 0) != MAP_FAILED);
    return mapped;
}

/* Of the output the tail is seen whole, with bytes behind, and of the rest what was written
   last to each place of the one period that it is in memory. */
static void compare_shuffled(enum direction direction, uint32_t width, uint8_t *records_out,
                             size_t tail_at)
{
    static uint8_t tail[TAIL];
    uint8_t *front = malloc(period);
    size_t len = (size_t)AT_32 + RECORDS_OVER * EDONR_PLACES * (size_t)width;
    stop_unless(front != NULL);
    random_fill(records_out, period);
    random_fill(tail, TAIL);
    memcpy(records_out + tail_at, tail, TAIL);
    reference_shuffles[direction](width, message, period, front, period);
    reference_shuffles[direction](width, message + tail_at, len - tail_at, tail, TAIL);
    uint64_t got =
        archive_shuffles[direction](width, message, len, records_out, len + BEHIND);
    check(got == len, "%s, width %" PRIu32 ": answered %" PRIx64, shuffle_names[direction],
          width, got);
    check(memcmp(records_out, front, period) == 0 &&
              memcmp(records_out + tail_at, tail, TAIL) == 0,
          "%s, width %" PRIu32 ": other bytes", shuffle_names[direction], width);
    free(front);
}

static void compare_records(void)
{
    size_t tail_at = (size_t)AT_32 - TAIL / 2;
    uint8_t *records_out = map_records_out(tail_at);
    check_group("records of over 2^32 bytes");
    for (enum direction d = FORWARD; d < DIRECTIONS; d++) {
        compare_shuffled(d, 32, records_out, tail_at);
        compare_shuffled(d, 64, records_out, tail_at);
    }
}

int main(int argc, char **argv)
{
    check_program("compare_huge", argc, argv);
    reference_init();
    choose_marks();
    period = PERIOD_PAGES * (size_t)sysconf(_SC_PAGESIZE);
    message = map_periods((size_t)marks[MARKS - 1], PROT_READ);
    out = lent_area(MOST_OUT, 1);
    compare_outputs();
    compare_long_list();
    compare_joined();
    compare_records();
    compare_size(WIDE, 512, 0);
    compare_size(WIDE, 384, MARKS - 2);
    compare_size(NARROW, 256, 0);
    compare_size(NARROW, 224, MARKS - 2);
    return check_finish();
}
