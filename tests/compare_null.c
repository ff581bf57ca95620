/*
 * A null pointer with length 0, at every buffer of every call, alone and together with
 * others, against the reference.
 */
#include <stddef.h>
#include <string.h>

#include "edonr.h"
#include "harness/check.h"
#include "harness/digest_call.h"
#include "harness/digests_call.h"
#include "harness/flips_call.h"
#include "harness/hash_call.h"
#include "harness/inverse_sheet_call.h"
#include "harness/lent.h"
#include "harness/product_call.h"
#include "harness/random.h"
#include "harness/replay_call.h"
#include "harness/run_call.h"
#include "harness/shuffle_call.h"
#include "harness/slice_call.h"
#include "harness/step_call.h"
#include "reference/answer.h"
#include "reference/division.h"

static const uint32_t widths[] = {32, 64, 0, 33};
static const uint32_t sizes[] = {224, 256, 384, 512, 0, 225};
static uint8_t bytes[512];

/* The buffers of a call by a number's bits: a bit that is set makes its buffer empty, and
   an empty buffer is lent as a null pointer. */
static size_t buffer_len(unsigned number, unsigned bit, size_t len)
{
    return number >> bit & 1 ? 0 : len;
}

/* Operands and output: refused by 5, by 6, or by 4. */
static void compare_products(void)
{
    check_group("product and divisions");
    for (unsigned n = 0; n < 4 * OPERATIONS * 8; n++) {
        uint32_t width = widths[n % 4];
        size_t first_len = buffer_len(n / 4 / OPERATIONS, 0, width);
        size_t second_len = buffer_len(n / 4 / OPERATIONS, 1, width);
        size_t out_len = buffer_len(n / 4 / OPERATIONS, 2, 64);
        struct product_call call = {&operations[n / 4 % OPERATIONS],
                                    width,
                                    bytes,
                                    first_len,
                                    bytes,
                                    second_len,
                                    out_len};
        check_product_call(&call);
    }
}

static void compare_digests(void)
{
    check_group("digest");
    for (unsigned n = 0; n < 6 * 4; n++) {
        size_t message_len = buffer_len(n / 6, 0, 100);
        check_digest_call(sizes[n % 6], bytes, message_len, buffer_len(n / 6, 1, 64));
    }
}

/* Messages with no bytes have no pointer, and neither has an empty list. */
static void compare_digest_lists(void)
{
    static const uint32_t lists[2][3] = {{40, 0, 60}, {0, 0, 0}};
    check_group("digests of many messages");
    for (unsigned n = 0; n < 6 * 8 * 2; n++) {
        struct digests call = {.size = sizes[n % 6],
                               .messages = bytes,
                               .messages_len = buffer_len(n / 6, 0, 100),
                               .lengths = lists[n / 48],
                               .lengths_len = buffer_len(n / 6, 1, 3),
                               .out_len = buffer_len(n / 6, 2, 3 * 64)};
        check_digests_call(&call, NULL);
    }
}

static const uint8_t flips[4] = {6, 0, 6, 1};

/* A run without vectors is refused; one without a sheet does nothing, and answers 0. */
static void compare_runs(void)
{
    uint8_t vectors[VECTORS_64];
    check_group("runs");
    for (unsigned n = 0; n < 4 * DIRECTIONS * 4; n++) {
        uint32_t width = widths[n % 4];
        size_t vectors_len =
            buffer_len(n / 4 / DIRECTIONS, 0, width == 64 ? VECTORS_64 : VECTORS_32);
        size_t sheet_len = buffer_len(n / 4 / DIRECTIONS, 1, sizeof flips);
        struct run run = {(enum direction)(n / 4 % DIRECTIONS), width, flips, sheet_len};
        random_fill(vectors, sizeof vectors);
        check_run_call(&run, vectors, vectors_len);
    }
}

/* The same of a slice, which without a sheet starts at offset 0 alone. */
static void compare_slices(void)
{
    uint8_t vectors[VECTORS_64];
    check_group("slices");
    for (unsigned n = 0; n < 4 * 4 * 6; n++) {
        uint32_t width = widths[n % 4];
        size_t vectors_len = buffer_len(n / 4, 0, width == 64 ? VECTORS_64 : VECTORS_32);
        struct slice slice = {width, flips, buffer_len(n / 4, 1, sizeof flips),
                              n / 16 % 3 * 2, (uint16_t)(n / 48 * 2)};
        random_fill(vectors, sizeof vectors);
        check_slice_call(&slice, vectors, vectors_len);
    }
}

/* The inverse sheet of an empty sheet is empty too, and needs no output. */
static void compare_inverse_sheets(void)
{
    check_group("inverse sheets");
    for (unsigned n = 0; n < 4 * 4; n++)
        check_inverse_sheet_call(widths[n % 4], flips, buffer_len(n / 4, 0, sizeof flips),
                                 buffer_len(n / 4, 1, 64), NULL);
}

/* A step without pipe or without block is refused. */
static void compare_steps(void)
{
    uint8_t pipe[PIPE_64];
    check_group("steps");
    for (unsigned n = 0; n < 4 * DIRECTIONS * 4; n++) {
        uint32_t width = widths[n % 4];
        size_t len = width == 64 ? PIPE_64 : PIPE_32;
        struct step step = {(enum direction)(n / 4 % DIRECTIONS), width, bytes,
                            buffer_len(n / 4 / DIRECTIONS, 1, len)};
        random_fill(pipe, sizeof pipe);
        check_step_call(&step, pipe, buffer_len(n / 4 / DIRECTIONS, 0, len));
    }
}

/* Without records nothing is written, and no output is needed. */
static void compare_shuffles(void)
{
    check_group("byte shuffles");
    for (unsigned n = 0; n < 4 * DIRECTIONS * 4; n++) {
        unsigned empty = n / 4 / DIRECTIONS;
        struct shuffle call = {(enum direction)(n / 4 % DIRECTIONS), widths[n % 4], bytes,
                               buffer_len(empty, 0, RECORD_64),
                               buffer_len(empty, 1, RECORD_64)};
        check_shuffle_call(&call, NULL);
    }
}

/* Without records every one holds; without a sheet there are too many of them. */
static void compare_replays(void)
{
    check_group("replays");
    for (unsigned n = 0; n < 4 * 8 * 3; n++) {
        uint32_t width = widths[n % 4];
        size_t len = width == 64 ? VECTORS_64 : VECTORS_32;
        struct replay replay = {width,
                                bytes,
                                buffer_len(n / 4, 0, len),
                                flips,
                                buffer_len(n / 4, 1, sizeof flips),
                                bytes,
                                buffer_len(n / 4, 2, n / 32 == 0 ? 1 : n / 32 * len / 2)};
        check_replay_call(&replay, NULL);
    }
}

/* Without records nothing is counted, and no list is needed. */
static void compare_flipped_bits(void)
{
    static const size_t lens[] = {PAIR, 8 * PAIR, 1};
    check_group("flipped bits");
    for (unsigned n = 0; n < 4 * 3; n++) {
        struct flips call = {bytes, buffer_len(n, 0, lens[n / 4]), buffer_len(n, 1, 8)};
        check_flips_call(&call, NULL);
    }
}

/* From an opened state and from made-up ones, in form and not. */
static void compare_pieces(enum kind kind)
{
    static const uint64_t totals[] = {0, 1, 63, 64, MOST_BYTES_FED, MOST_BYTES_FED + 1};
    union hash hash;
    check_group("hashing in pieces, %s", kind_names[kind]);
    for (unsigned n = 0; n < 6 * 6; n++) {
        random_fill((uint8_t *)&hash, sizeof hash);
        check_open_call(kind, &hash, sizes[n % 6]);
        check_feed_call(kind, &hash, bytes, 0);
        check_finish_call(kind, &hash, 0, NULL);
        set_hash(kind, &hash, sizes[n % 6], totals[n / 6]);
        check_feed_call(kind, &hash, bytes, 0);
        check_finish_call(kind, &hash, 0, NULL);
        check_finish_call(kind, &hash, 64, NULL);
    }
}

/* The same with bits: without an output refused by 2, by 15, or by 4. */
static void compare_last_bits(enum kind kind)
{
    static const uint64_t totals[] = {0, 55, 119, MOST_BYTES_FED, MOST_BYTES_FED + 1};
    static const uint32_t counts[] = {0, 1, 7, 8, 256, UINT32_MAX};
    union hash hash;
    check_group("finishing with bits, %s", kind_names[kind]);
    for (unsigned n = 0; n < 6 * 6 * 5; n++) {
        random_fill((uint8_t *)&hash, sizeof hash);
        set_hash(kind, &hash, sizes[n % 6], totals[n / 36]);
        check_finish_bits_call(kind, &hash, bytes[n], counts[n / 6 % 6], 0, NULL);
        check_finish_bits_call(kind, &hash, bytes[n], counts[n / 6 % 6], 64, NULL);
    }
}

#define REFUSED(number) ((uint64_t)(number) << 32)

/* The same as numbers, without the reference. */
static void check_points(void)
{
    uint8_t v[32] = {0}, vectors[VECTORS_32] = {0}, pipe[PIPE_32] = {0}, out[64];
    struct edonr_narrow narrow;
    struct edonr_wide wide;
    check_group("answers as numbers");
    for (unsigned i = 0; i < OPERATIONS; i++) {
        operation_call *call = operations[i].archive;
        check(call(32, NULL, 0, v, 32, out, 64) == REFUSED(6), "no first operand");
        check(call(32, v, 32, NULL, 0, out, 64) == REFUSED(6), "no second operand");
        check(call(32, v, 32, v, 32, NULL, 0) == REFUSED(4), "no output");
    }
    check(edonr_digest(256, NULL, 0, out, 64) == 32, "digest of no message");
    check(edonr_digest(512, v, 32, NULL, 0) == REFUSED(4), "digest without output");
    for (unsigned i = 0; i < DIRECTIONS; i++) {
        run_function *run = archive_runs[i];
        step_function *step = archive_steps[i];
        check(run(32, NULL, 0, v, 2) == REFUSED(6), "a run without vectors");
        check(run(32, vectors, VECTORS_32, NULL, 0) == 0, "a run without a sheet");
        check(step(32, NULL, 0, pipe, PIPE_32) == REFUSED(6), "a step without pipe");
        check(step(32, pipe, PIPE_32, NULL, 0) == REFUSED(6), "a step without block");
        check(step(33, NULL, 0, NULL, 0) == REFUSED(5), "a step with neither");
    }
    check(edonr_narrow_open(&narrow, 256) == 0 && edonr_wide_open(&wide, 512) == 0,
          "openings");
    check(edonr_narrow_feed(&narrow, NULL, 0) == 0, "narrow, fed nothing");
    check(edonr_wide_feed(&wide, NULL, 0) == 0, "wide, fed nothing");
    check(edonr_narrow_finish(&narrow, NULL, 0) == REFUSED(4), "narrow, no output");
    check(edonr_wide_finish(&wide, NULL, 0) == REFUSED(4), "wide, no output");
}

static void check_bits_points(void)
{
    struct edonr_narrow narrow = {.size = 256};
    struct edonr_wide wide = {.size = 512};
    check_group("answers of finishing with bits as numbers");
    check(edonr_narrow_finish_bits(&narrow, 1, 7, NULL, 0) == REFUSED(4), "narrow");
    check(edonr_wide_finish_bits(&wide, 1, 7, NULL, 0) == REFUSED(4), "wide");
    check(edonr_narrow_finish_bits(&narrow, 1, 8, NULL, 0) == REFUSED(15),
          "narrow, too many bits");
    check(edonr_wide_finish_bits(&wide, 1, 8, NULL, 0) == REFUSED(15),
          "wide, too many bits");
    narrow.size = wide.size = 320;
    check(edonr_narrow_finish_bits(&narrow, 1, 8, NULL, 0) == REFUSED(2),
          "narrow, not in form");
    check(edonr_wide_finish_bits(&wide, 1, 8, NULL, 0) == REFUSED(2), "wide, not in form");
}

static void check_digests_points(void)
{
    static const uint32_t lengths[2] = {0, 0};
    uint8_t out[128], before[sizeof out];
    random_fill(out, sizeof out);
    memcpy(before, out, sizeof out);
    check_group("answers of digests of many messages as numbers");
    check(edonr_digests(512, NULL, 0, NULL, 0, out, 128) == 0, "neither messages nor list");
    check(edonr_digests(256, NULL, 0, NULL, 0, NULL, 0) == 0, "nothing at all");
    check(memcmp(out, before, sizeof out) == 0, "an output without messages is changed");
    check(edonr_digests(512, NULL, 0, lengths, 2, out, 128) == 128, "two empty messages");
    check(edonr_digests(512, NULL, 0, lengths, 2, NULL, 0) == REFUSED(4),
          "two empty messages and no output");
    check(edonr_digests(384, bytes, 1, NULL, 0, out, 128) == REFUSED(13),
          "a byte and no list");
    check(edonr_digests(224, bytes, 1, NULL, 0, NULL, 0) == REFUSED(13),
          "a byte and neither");
    check(edonr_digests(225, NULL, 0, NULL, 0, NULL, 0) == REFUSED(1),
          "nothing, at no size");
}

static void check_sheet_points(void)
{
    uint8_t vectors[VECTORS_32] = {0}, out[64];
    check_group("answers of slices and of inverse sheets as numbers");
    check(edonr_run_slice(32, NULL, 0, flips, 4, 0, 1) == REFUSED(6),
          "a slice without vectors");
    check(edonr_run_slice(32, vectors, VECTORS_32, NULL, 0, 0, 9) == 0,
          "a slice without a sheet");
    check(edonr_run_slice(32, vectors, VECTORS_32, NULL, 0, 1, 0) == REFUSED(14),
          "a slice without a sheet, from 1");
    check(edonr_run_slice(33, NULL, 0, NULL, 0, 1, 1) == REFUSED(5),
          "a slice with neither");
    check(edonr_inverse_sheet(32, NULL, 0, out, 64) == 0, "an inverse sheet of no sheet");
    check(edonr_inverse_sheet(64, NULL, 0, NULL, 0) == 0, "neither sheet nor output");
    check(edonr_inverse_sheet(32, flips, 4, NULL, 0) == REFUSED(4),
          "an inverse sheet without output");
    check(edonr_inverse_sheet(33, NULL, 0, NULL, 0) == REFUSED(5), "neither, at no width");
}

#define MARKED(number) (((uint64_t)1 << 63) + REFUSED(number))

static void check_shuffle_points(void)
{
    uint8_t out[64];
    check_group("answers of byte shuffles as numbers");
    for (unsigned i = 0; i < DIRECTIONS; i++) {
        shuffle_function *shuffle = archive_shuffles[i];
        check(shuffle(32, NULL, 0, out, 64) == 0, "no records");
        check(shuffle(64, NULL, 0, NULL, 0) == 0, "neither records nor output");
        check(shuffle(32, bytes, RECORD_32, NULL, 0) == MARKED(4), "no output");
        check(shuffle(64, bytes, 1, NULL, 0) == MARKED(16), "a byte and no output");
        check(shuffle(33, NULL, 0, NULL, 0) == MARKED(5), "neither, at no width");
    }
}

static void check_replay_points(void)
{
    uint8_t vectors[VECTORS_32] = {0}, records[RECORD_32] = {0};
    struct edonr_finding f;
    check_group("answers of replays as numbers");
    check(edonr_first_false_record(32, vectors, VECTORS_32, NULL, 0, NULL, 0, &f) == 0,
          "neither sheet nor records");
    check(edonr_first_false_record(32, vectors, VECTORS_32, flips, 4, NULL, 0, &f) == 0,
          "no records");
    check(edonr_first_false_record(32, vectors, VECTORS_32, NULL, 0, records, RECORD_32,
                                   &f) == REFUSED(17),
          "a record and no sheet");
    check(edonr_first_false_record(32, vectors, VECTORS_32, NULL, 0, records, 1, &f) ==
              REFUSED(16),
          "a byte and no sheet");
    check(edonr_first_false_record(32, NULL, 0, flips, 4, records, RECORD_32, &f) ==
              REFUSED(6),
          "no vectors");
    check(edonr_first_false_record(64, NULL, 0, NULL, 0, NULL, 0, &f) == REFUSED(6),
          "nothing at all");
    check(edonr_first_false_record(33, NULL, 0, NULL, 0, NULL, 0, &f) == REFUSED(5),
          "nothing, at no width");
}

static void check_flips_points(void)
{
    uint16_t counts[2] = {7, 65535};
    check_group("answers of flipped bits as numbers");
    check(edonr_flipped_bits(NULL, 0, counts, 2) == 0, "no records");
    check(edonr_flipped_bits(NULL, 0, NULL, 0) == 0, "neither records nor list");
    check(edonr_flipped_bits(bytes, PAIR, NULL, 0) == REFUSED(4), "a record and no list");
    check(edonr_flipped_bits(bytes, 1, NULL, 0) == REFUSED(19), "a byte and no list");
    check(counts[0] == 7 && counts[1] == 65535, "a list without records is changed");
}

int main(int argc, char **argv)
{
    check_program("compare_null", argc, argv);
    reference_init();
    random_fill(bytes, sizeof bytes);
    lent_empty_is_null(true);
    compare_products();
    compare_digests();
    compare_digest_lists();
    compare_runs();
    compare_slices();
    compare_inverse_sheets();
    compare_steps();
    compare_shuffles();
    compare_replays();
    compare_flipped_bits();
    for (enum kind kind = NARROW; kind < KINDS; kind++) {
        compare_pieces(kind);
        compare_last_bits(kind);
    }
    check_points();
    check_bits_points();
    check_digests_points();
    check_sheet_points();
    check_shuffle_points();
    check_replay_points();
    check_flips_points();
    return check_finish();
}
