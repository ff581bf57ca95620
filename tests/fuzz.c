/*
 * fuzz [rounds]: all twenty-three calls with random arguments, sound, nearly sound and
 * nonsense, each compared with the reference. The number of rounds is fixed, so that two
 * runs from one seed are the same.
 */
#include <stdbool.h>
#include <stdio.h>
#include <stdlib.h>
#include <string.h>

#include "harness/check.h"
#include "harness/digest_call.h"
#include "harness/digests_call.h"
#include "harness/flips_call.h"
#include "harness/hash_call.h"
#include "harness/hash_maker.h"
#include "harness/inverse_sheet_call.h"
#include "harness/product_call.h"
#include "harness/random.h"
#include "harness/recording.h"
#include "harness/replay_call.h"
#include "harness/run_call.h"
#include "harness/sheet_maker.h"
#include "harness/shuffle_call.h"
#include "harness/slice_call.h"
#include "harness/step_call.h"
#include "reference/answer.h"
#include "reference/digest.h"
#include "reference/division.h"

enum {
    DEFAULT_ROUNDS = 1000000,
    MOST_MESSAGE = 1 << 16,
    MOST_OUT = 200,
    MOST_FUZZED = 16, /* records or messages */
    CALLS = 23
};

static const uint32_t sizes[4] = {224, 256, 384, 512};
static uint8_t bytes[MOST_MESSAGE];

/* ---------------- arguments ---------------- */

/* Mostly the right number, else one that is close to it, else any. */
static uint64_t fuzz_number(uint64_t right)
{
    switch (random_below(10)) {
    case 0: return random_bits(64);
    case 1: return random_near(right);
    default: return right;
    }
}

/* The length of an output, which cannot be claimed only: a success writes there. */
static size_t fuzz_out_len(uint64_t right, size_t most)
{
    uint64_t len = fuzz_number(right);
    return (size_t)(len <= most ? len : random_below(most));
}

static uint32_t fuzz_width(void)
{
    return (uint32_t)fuzz_number(random_below(2) == 0 ? 32 : 64);
}

/* Some lengths of a message that is lent: mostly a block or a few, some long. */
static size_t fuzz_message_len(void)
{
    return (size_t)(random_below(8) == 0 ? random_bits(16) : random_below(300));
}

/* A length that is only claimed, over what any area lends. */
static uint64_t fuzz_claim(void)
{
    return random_bits(64) | (uint64_t)1 << 32;
}

/* ---------------- calls ---------------- */

static bool fuzz_operation(unsigned operation)
{
    uint8_t first[PRODUCT_CALL_CAPACITY], second[PRODUCT_CALL_CAPACITY];
    uint32_t width = fuzz_width();
    struct product_call call = {.operation = &operations[operation],
                                .width = width,
                                .first = first,
                                .first_len = (size_t)fuzz_number(width),
                                .second = second,
                                .second_len = (size_t)fuzz_number(width),
                                .out_len = fuzz_out_len(width, MOST_OUT)};
    random_pattern(first, call.first_len <= sizeof first ? call.first_len : 0);
    random_pattern(second, call.second_len <= sizeof second ? call.second_len : 0);
    return is_refusal(check_product_call(&call));
}

/* A length is claimed only where the call refuses it. */
static bool fuzz_digest(void)
{
    uint32_t right = sizes[random_below(4)], size = (uint32_t)fuzz_number(right);
    size_t len = fuzz_message_len(), out_len = fuzz_out_len(right / 8, MOST_OUT);
    uint64_t claim = fuzz_claim();
    uint8_t out[MOST_OUT];
    random_pattern(bytes, len);
    bool refused = is_refusal(reference_digest(size, bytes, 0, out, out_len));
    if (random_below(8) == 0 && (refused || claim > MOST_BYTES_FED))
        len = (size_t)claim;
    return is_refusal(check_digest_call(size, bytes, len, out_len));
}

/* The lengths of so many messages, all of whose bytes are lent here. Returns their sum. */
static size_t fuzz_lengths(uint32_t *lengths, size_t count)
{
    size_t sum = 0;
    for (size_t k = 0; k < count; k++) {
        size_t len = count <= MOST_FUZZED ? fuzz_message_len() : random_below(20);
        lengths[k] = (uint32_t)(len <= sizeof bytes - sum ? len : 0);
        sum += lengths[k];
    }
    return sum;
}

/* Mostly a few messages, now and then around the most of them. Of a message's length, the
   list's and the joined length one at most is made another. So a joined length that is not
   lent here is no sum of lengths: it is refused, and can be claimed only. */
static bool fuzz_digests(void)
{
    static uint32_t lengths[DIGESTS_CALL_LENGTHS];
    uint32_t right = sizes[random_below(4)], size = (uint32_t)fuzz_number(right);
    size_t few = (size_t)random_below(random_below(16) == 0 ? MOST_FUZZED : 4);
    size_t count = random_below(512) == 0 ? MOST_MESSAGES + 1 - few : few;
    size_t sum = fuzz_lengths(lengths, count), len = count * (right / 8);
    size_t out_len = fuzz_out_len(len, len + MOST_OUT);
    struct digests call = {size, bytes, sum, lengths, count, out_len};
    random_pattern(bytes, sum);
    switch (random_below(4)) {
    case 0: call.messages_len = (size_t)fuzz_number(sum); break;
    case 1: call.lengths_len = (size_t)fuzz_number(count); break;
    case 2: lengths[0] = (uint32_t)fuzz_number(lengths[0]); break;
    }
    if (call.messages_len > sizeof bytes && call.messages_len <= DIGESTS_CALL_MESSAGES)
        call.messages_len += (size_t)1 << 32;
    return is_refusal(check_digests_call(&call, NULL));
}

/* Sound, damaged, or bytes that were never a sheet. */
static void fuzz_sheet(uint32_t width, struct sheet *sheet)
{
    size_t len = (size_t)random_below(random_below(16) ? 150 : SHEET_MOST_BYTES + 1);
    uint64_t kind = random_below(4);
    if (kind == 0) {
        random_pattern(sheet->bytes, len);
        sheet->len = len;
        sheet->count = 0;
        return;
    }
    make_sheet(width == 32 || width == 64 ? width : 32, len == 1 ? 0 : len, sheet);
    if (kind == 1)
        damage_sheet(sheet);
}

/* The vectors of a run. Half of them is a length that a caller might think enough. */
static size_t fuzz_vectors(uint32_t width, uint8_t vectors[RUN_CALL_VECTORS])
{
    uint64_t places = random_below(32) == 0 ? EDONR_PLACES / 2 : EDONR_PLACES;
    size_t len = (size_t)fuzz_number(places * width);
    random_pattern(vectors, len <= RUN_CALL_VECTORS ? len : 0);
    return len;
}

static bool fuzz_run(enum direction direction)
{
    static struct sheet sheet;
    uint8_t vectors[RUN_CALL_VECTORS];
    uint32_t width = fuzz_width();
    size_t vectors_len = fuzz_vectors(width, vectors);
    fuzz_sheet(width, &sheet);
    struct run run = {direction, width, sheet.bytes, sheet.len};
    if (random_below(64) == 0)
        run.sheet_len = (size_t)fuzz_claim();
    return is_refusal(check_run_call(&run, vectors, vectors_len));
}

/* Mostly from where a command of the sheet begins as made, or from its end. */
static bool fuzz_slice(void)
{
    static struct sheet sheet;
    uint8_t vectors[RUN_CALL_VECTORS];
    uint32_t width = fuzz_width();
    size_t vectors_len = fuzz_vectors(width, vectors);
    fuzz_sheet(width, &sheet);
    size_t number = (size_t)random_below(sheet.count + 1);
    size_t start = number < sheet.count ? sheet.offsets[number] : sheet.len;
    uint64_t commands = random_below(sheet.count - number + 2);
    struct slice slice = {width, sheet.bytes, sheet.len, (uint32_t)fuzz_number(start), 0};
    slice.budget = (uint16_t)fuzz_number(commands);
    if (random_below(64) == 0)
        slice.sheet_len = (size_t)fuzz_claim();
    return is_refusal(check_slice_call(&slice, vectors, vectors_len));
}

static bool fuzz_inverse_sheet(void)
{
    static struct sheet sheet;
    uint32_t width = fuzz_width();
    fuzz_sheet(width, &sheet);
    size_t len = sheet.len, out_len = fuzz_out_len(len, INVERSE_SHEET_CALL_CAPACITY);
    if (random_below(64) == 0)
        len = (size_t)fuzz_claim();
    return is_refusal(check_inverse_sheet_call(width, sheet.bytes, len, out_len, NULL));
}

/* One hash of each kind goes on from call to call, and is made up anew now and then. */
static union hash *fuzz_hash(enum kind kind)
{
    static union hash hashes[KINDS];
    if (random_below(4) == 0)
        make_up_hash(kind, &hashes[kind]);
    return &hashes[kind];
}

static bool fuzz_open(enum kind kind)
{
    uint32_t size = (uint32_t)fuzz_number(kind_sizes[kind][random_below(2)]);
    return is_refusal(check_open_call(kind, fuzz_hash(kind), size));
}

/* A length is claimed only where the call refuses it. */
static bool fuzz_feed(enum kind kind)
{
    union hash *hash = fuzz_hash(kind), copy = *hash;
    size_t len = fuzz_message_len();
    uint64_t claim = fuzz_claim();
    random_pattern(bytes, len);
    bool refused =
        is_marked_refusal(kind == NARROW ? reference_feed_32(&copy.narrow, bytes, 0)
                                         : reference_feed_64(&copy.wide, bytes, 0));
    if (random_below(8) == 0 &&
        (refused || claim > MOST_BYTES_FED - hash_total(kind, hash)))
        len = (size_t)claim;
    return is_marked_refusal(check_feed_call(kind, hash, bytes, len));
}

static bool fuzz_finish(enum kind kind)
{
    union hash *hash = fuzz_hash(kind);
    size_t out_len = fuzz_out_len(kind_sizes[kind][random_below(2)] / 8, MOST_OUT);
    return is_refusal(check_finish_call(kind, hash, out_len, NULL));
}

/* Mostly a count that is accepted or just over, else any. An output is claimed only beside
   a count that is refused. */
static bool fuzz_finish_bits(enum kind kind)
{
    union hash *hash = fuzz_hash(kind);
    size_t out_len = fuzz_out_len(kind_sizes[kind][random_below(2)] / 8, MOST_OUT);
    uint8_t last = (uint8_t)random_word();
    uint32_t count = (uint32_t)(random_below(16) == 0 ? fuzz_number(7) : random_below(10));
    if (count > 7 && random_below(4) == 0)
        out_len = (size_t)fuzz_claim();
    return is_refusal(check_finish_bits_call(kind, hash, last, count, out_len, NULL));
}

static bool fuzz_step(enum direction direction)
{
    uint8_t pipe[STEP_CALL_CAPACITY], block[STEP_CALL_CAPACITY];
    uint32_t width = fuzz_width();
    size_t pipe_len = (size_t)fuzz_number(2 * (uint64_t)width);
    struct step step = {direction, width, block, (size_t)fuzz_number(2 * (uint64_t)width)};
    random_pattern(pipe, pipe_len <= sizeof pipe ? pipe_len : 0);
    random_pattern(block, step.block_len <= sizeof block ? step.block_len : 0);
    return is_refusal(check_step_call(&step, pipe, pipe_len));
}

/* Mostly whole records. Lengths over those that are lent here are claimed only: they are
   refused, since no output is as long. */
static bool fuzz_shuffle(enum direction direction)
{
    uint8_t records[MOST_FUZZED * RECORD_64];
    uint32_t width = fuzz_width();
    uint64_t count = random_below(random_below(16) == 0 ? MOST_FUZZED : 3);
    size_t len = (size_t)fuzz_number(count * (width == 64 ? RECORD_64 : RECORD_32));
    size_t out_len = fuzz_out_len(len, sizeof records);
    random_pattern(records, len <= sizeof records ? len : 0);
    if (len > sizeof records && len <= SHUFFLE_CALL_CAPACITY)
        len += (size_t)1 << 32;
    struct shuffle call = {direction, width, records, len, out_len};
    return is_marked_refusal(check_shuffle_call(&call, NULL));
}

/* Records of the first commands of a sheet, as they were or damaged once or twice. */
static void fuzz_recording(uint32_t width, const uint8_t *vectors,
                           const struct sheet *sheet, size_t count, uint8_t *records)
{
    record_run(width, vectors, sheet, count, records);
    for (uint64_t damages = random_below(3); damages > 0; damages--)
        damage_records(width, records, count);
}

/* Mostly the records of a sheet that is sound. Lengths over those that are lent here are
   claimed only: they are refused, since no sheet has as many commands. */
static bool fuzz_replay(void)
{
    static struct sheet sheet;
    static uint8_t vectors[RUN_CALL_VECTORS], records[MOST_FUZZED * RECORD_64];
    uint32_t width = random_below(2) == 0 ? 32 : 64;
    size_t one = EDONR_PLACES * (size_t)width, len = (size_t)random_below(150);
    make_sheet(width, len == 1 ? 0 : len, &sheet);
    size_t most = sheet.count < MOST_FUZZED ? sheet.count : MOST_FUZZED;
    size_t count = random_below(4) == 0 ? (size_t)random_below(most + 1) : most;
    random_pattern(vectors, one);
    fuzz_recording(width, vectors, &sheet, count, records);
    if (random_below(8) == 0)
        damage_sheet(&sheet);
    struct replay replay = {width, vectors, one, sheet.bytes, sheet.len, records, 0};
    replay.width = (uint32_t)fuzz_number(width);
    replay.records_len = (size_t)fuzz_number(count * one);
    if (replay.records_len > sizeof records && replay.records_len <= REPLAY_CALL_RECORDS)
        replay.records_len += (size_t)1 << 32;
    if (random_below(8) == 0)
        replay.vectors_len = (size_t)fuzz_number(one);
    if (random_below(64) == 0)
        replay.sheet_len = (size_t)fuzz_claim();
    return is_refusal(check_replay_call(&replay, NULL));
}

/* Mostly whole records, now and then around the most of them. Lengths over those that are
   lent here are claimed only: they are refused, since they are over the most. */
static bool fuzz_flips(void)
{
    uint64_t few = random_below(random_below(16) == 0 ? MOST_FUZZED : 3);
    uint64_t count = random_below(256) == 0 ? MOST_PAIRS + 1 - few : few;
    size_t len = (size_t)fuzz_number(count * PAIR);
    size_t counts_len = fuzz_out_len(count, FLIPS_CALL_COUNTS);
    random_pattern(bytes, len <= sizeof bytes ? len : 0);
    if (len > sizeof bytes && len <= FLIPS_CALL_RECORDS)
        len += (size_t)1 << 32;
    struct flips flips = {bytes, len, counts_len};
    return is_refusal(check_flips_call(&flips, NULL));
}

static bool fuzz_call(unsigned call)
{
    enum kind kind = call % 2 == 0 ? NARROW : WIDE;
    switch (call) {
    case 0: return fuzz_operation(PRODUCT);
    case 1: return fuzz_operation(LEFT_DIVISION);
    case 2: return fuzz_operation(RIGHT_DIVISION);
    case 3: return fuzz_digest();
    case 4: return fuzz_run(FORWARD);
    case 5: return fuzz_run(BACKWARD);
    case 6:
    case 7: return fuzz_open(kind);
    case 8:
    case 9: return fuzz_feed(kind);
    case 10:
    case 11: return fuzz_finish(kind);
    case 12: return fuzz_step(FORWARD);
    case 13: return fuzz_step(BACKWARD);
    case 14: return fuzz_inverse_sheet();
    case 15: return fuzz_slice();
    case 16: return fuzz_shuffle(FORWARD);
    case 17: return fuzz_shuffle(BACKWARD);
    case 18: return fuzz_replay();
    case 19: return fuzz_flips();
    case 20:
    case 21: return fuzz_finish_bits(kind);
    default: return fuzz_digests();
    }
}

int main(int argc, char **argv)
{
    static const char *const names[CALLS] = {
        "product",        "left division", "right division", "digest",
        "forward run",    "backward run",  "narrow opening", "wide opening",
        "narrow feeding", "wide feeding",  "narrow finish",  "wide finish",
        "forward step",   "backward step", "inverse sheet",  "slice",
        "shuffle",        "unshuffle",     "replay",         "flipped bits",
        "narrow bits",    "wide bits",     "digests",
    };
    unsigned long calls[CALLS] = {0}, refused[CALLS] = {0};
    int argument = check_program("fuzz", argc, argv);
    unsigned long rounds =
        argument < argc ? strtoul(argv[argument], NULL, 10) : DEFAULT_ROUNDS;
    reference_init();
    check_group("twenty-three calls with random arguments");
    for (unsigned long round = 0; round < rounds; round++) {
        unsigned call = (unsigned)random_below(CALLS);
        calls[call]++;
        refused[call] += fuzz_call(call);
    }
    for (unsigned i = 0; i < CALLS; i++)
        printf("  %s: %lu calls, of which %lu were refused\n", names[i], calls[i],
               refused[i]);
    return check_finish();
}
