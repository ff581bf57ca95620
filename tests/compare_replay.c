/*
 * The first false record of a run by the archive against the reference, bit for bit, and
 * against what was made false in its records.
 */
#include <inttypes.h>
#include <stdbool.h>
#include <string.h>

#include "edonr.h"
#include "harness/check.h"
#include "harness/random.h"
#include "harness/recording.h"
#include "harness/replay_call.h"
#include "harness/run_call.h"
#include "harness/sheet_maker.h"
#include "reference/answer.h"
#include "reference/division.h"
#include "reference/sheet.h"

enum {
    RANDOM_RUNS = 20000,
    REPLAYS = 3,    /* of each random run */
    RUNS = 4000,    /* in which one thing is changed */
    CUT_RUNS = 100, /* at every record */
    WORD_RUNS = 12,
    FULL_RUNS = 4,
    FAULTY_SHEETS = 3000,
    RECORD_WORDS = EDONR_PLACES * 8,
    MOST_OF_THREE = SHEET_MOST_BYTES / 3
};

static const uint32_t widths[2] = {32, 64};

#define OVER_32 ((uint64_t)1 << 32)
#define REFUSED(number, offset) (((uint64_t)(number) << 32) + (offset))

/* ---------------- recorded runs ---------------- */

/* A run, what its records should be, and the records that are lent, which have room for one
   more than the most commands have. */
static struct {
    uint32_t width;
    struct sheet sheet;
    uint8_t start[RUN_CALL_VECTORS];
    uint8_t truth[REPLAY_CALL_RECORDS];
    uint8_t records[REPLAY_CALL_RECORDS];
} run;

static size_t record_len(uint32_t width)
{
    return width == 64 ? RECORD_64 : RECORD_32;
}

/* Records the sheet that was made, from random vectors on. */
static void record(uint32_t width)
{
    run.width = width;
    random_pattern(run.start, record_len(width));
    record_run(width, run.start, &run.sheet, run.sheet.count, run.truth);
    memcpy(run.records, run.truth, run.sheet.count * record_len(width));
}

/* A run of at least one command, mostly short. */
static void record_some(uint32_t width)
{
    size_t len = random_sheet_len();
    make_sheet(width, len == 0 ? 2 : len, &run.sheet);
    record(width);
}

/* A short run, but for the first, whose sheet is full. */
static void record_cut(uint32_t width, unsigned number)
{
    size_t len = number == 0 ? SHEET_MOST_BYTES : 2 + (size_t)random_below(160);
    make_sheet(width, len, &run.sheet);
    record(width);
}

/* The call for the first count records. */
static struct replay replay_of(size_t count)
{
    size_t one = record_len(run.width);
    return (struct replay){run.width,     run.start,   one,        run.sheet.bytes,
                           run.sheet.len, run.records, count * one};
}

/* The first count records, and what has to be answered. */
static void check_answer(size_t count, uint64_t answer)
{
    struct replay replay = replay_of(count);
    uint64_t got = check_replay_call(&replay, NULL);
    check(got == answer, "%zu records of %zu commands: answered %" PRIx64, count,
          run.sheet.count, got);
}

/* Every one of them holds. */
static void check_true(size_t count)
{
    check_answer(count, 0);
}

/* The word of these records that a byte belongs to, by the byte's place. */
static uint64_t word_at(const uint8_t *records, size_t at)
{
    size_t word_len = run.width / 8, first = at - at % word_len;
    uint64_t word = 0;
    for (size_t i = word_len; i > 0; i--)
        word = word << 8 | records[first + i - 1];
    return word;
}

/* Of the first count records one is false, and the byte at this place is the first that
   differs. The place tells all that has to be found. */
static void check_false(size_t count, size_t at)
{
    size_t one = record_len(run.width), in_record = at % one;
    uint64_t want[FINDING_VALUES] = {run.sheet.offsets[at / one], in_record / run.width,
                                     in_record % run.width / (run.width / 8),
                                     word_at(run.records, at), word_at(run.truth, at)};
    uint64_t got[FINDING_VALUES];
    struct replay replay = replay_of(count);
    uint64_t answer = check_replay_call(&replay, got);
    check(answer == at / one + 1, "byte %zu of %zu records: answered %" PRIx64, at, count,
          answer);
    check(memcmp(got, want, sizeof want) == 0,
          "byte %zu of %zu records: offset %" PRIu64 ", place %" PRIu64 ", word %" PRIu64
          ", found %" PRIx64 ", expected %" PRIx64,
          at, count, got[FINDING_OFFSET], got[FINDING_PLACE], got[FINDING_WORD],
          got[FINDING_FOUND], got[FINDING_EXPECTED]);
}

/* The first byte of the first count records that is false; their length if none is. */
static size_t first_false_byte(size_t count)
{
    size_t len = count * record_len(run.width), at = 0;
    while (at < len && run.records[at] == run.truth[at])
        at++;
    return at;
}

/* Whatever was changed in the records. Returns whether one of them is false. */
static bool check_changed(size_t count)
{
    size_t at = first_false_byte(count);
    bool is_false = at < count * record_len(run.width);
    if (is_false)
        check_false(count, at);
    else
        check_true(count);
    return is_false;
}

/* ---------------- against the reference ---------------- */

/* Mostly a record for each command; else fewer, none, or one more. */
static size_t random_count(void)
{
    size_t count = run.sheet.count;
    switch (random_below(8)) {
    case 0: return 0;
    case 1: return count + 1;
    case 2: return count > 0 ? count - 1 : 0;
    case 3:
    case 4: return (size_t)random_below(count + 1);
    default: return count;
    }
}

/* Mostly the right length. */
static size_t random_len(size_t right)
{
    return random_below(12) == 0 ? (size_t)random_near(right) : right;
}

/* The run at this width, which may be another than its own, or none. */
static void check_random_replay(uint32_t width)
{
    size_t one = EDONR_PLACES * (size_t)width;
    struct replay replay = {
        width, run.start, random_len(one), run.sheet.bytes, run.sheet.len, run.records, 0};
    replay.records_len = random_len(random_count() * one);
    check_replay_call(&replay, NULL);
}

static void compare_random(uint32_t width)
{
    check_group("random runs, width %" PRIu32, width);
    for (unsigned i = 0; i < RANDOM_RUNS; i++) {
        make_sheet(width, random_sheet_len(), &run.sheet);
        record(width);
        if (i % 3 == 1)
            damage_sheet(&run.sheet);
        if (i % 4 != 0)
            damage_records(width, run.records, run.sheet.count);
        for (unsigned n = 0; n < REPLAYS; n++)
            check_random_replay(random_width(width));
    }
}

/* No record of a short sheet, all of them and more, each one true; then some bytes of them
   and all, with a false one. */
static void check_short_sheet(uint32_t width, const uint8_t *sheet, size_t sheet_len)
{
    enum { COMMANDS = 2 };
    size_t one = record_len(width);
    struct replay replay = {width, run.start, one, sheet, sheet_len, run.records, 0};
    random_pattern(run.start, one);
    for (uint16_t k = 0; k <= COMMANDS; k++) {
        memcpy(run.records + k * one, run.start, one);
        reference_run_slice(width, run.records + k * one, one, sheet, sheet_len, 0, k + 1);
    }
    for (size_t count = 0; count <= COMMANDS + 1; count++) {
        replay.records_len = count * one;
        check_replay_call(&replay, NULL);
    }
    run.records[random_below(COMMANDS * one)] ^= 1;
    replay.records_len = (size_t)random_below(COMMANDS * one);
    check_replay_call(&replay, NULL);
    replay.records_len = COMMANDS * one;
    check_replay_call(&replay, NULL);
}

static void compare_cut_commands(uint32_t width)
{
    check_group("one command, cut anywhere, width %" PRIu32, width);
    each_cut_command(width, check_short_sheet);
}

static void compare_places(uint32_t width)
{
    check_group("places, width %" PRIu32, width);
    each_pair_of_places(width, check_short_sheet);
}

/* ---------------- flipped bits ---------------- */

static void flip_bit(size_t bit)
{
    run.records[bit / 8] ^= (uint8_t)(1u << bit % 8);
}

/* A random bit of a record, by its number from 0; bits are numbered over all records. */
static size_t random_bit_of(size_t number)
{
    size_t bits = 8 * record_len(run.width);
    return number * bits + (size_t)random_below(bits);
}

/* A bit of the true records, flipped and flipped back: its record is named among count and
   as the last one, and those before it hold. */
static void check_bit(size_t count, size_t bit)
{
    size_t number = bit / 8 / record_len(run.width);
    flip_bit(bit);
    check_false(count, bit / 8);
    check_false(number + 1, bit / 8);
    check_true(number);
    flip_bit(bit);
}

static void compare_one_bit(uint32_t width)
{
    check_group("one bit flipped, width %" PRIu32, width);
    for (unsigned i = 0; i < RUNS; i++) {
        record_some(width);
        size_t count = 1 + (size_t)random_below(run.sheet.count);
        check_true(count);
        check_bit(count, random_bit_of((size_t)random_below(count)));
        check_true(run.sheet.count);
    }
}

/* Every word of the first record, the last one and one between: its lowest bit, its highest
   and another. */
static void compare_words(uint32_t width)
{
    check_group("a bit of every word, width %" PRIu32, width);
    for (unsigned i = 0; i < WORD_RUNS * 3 * RECORD_WORDS; i++) {
        if (i % (3 * RECORD_WORDS) == 0)
            record_cut(width, 1);
        size_t count = run.sheet.count, middle = (size_t)random_below(count);
        size_t numbers[3] = {0, middle, count - 1};
        size_t first = (numbers[i % 3] * RECORD_WORDS + i / 3 % RECORD_WORDS) * width;
        check_bit(count, first);
        check_bit(count, first + width - 1);
        check_bit(count, first + (size_t)random_below(width));
    }
}

/* Every number of records, and in each of them one bit; then one record too many. */
static void compare_counts(uint32_t width)
{
    check_group("every number of records, width %" PRIu32, width);
    for (unsigned i = 0; i < CUT_RUNS; i++) {
        record_cut(width, i);
        for (size_t number = 0; number < run.sheet.count; number++)
            check_bit(run.sheet.count, random_bit_of(number));
        check_true(run.sheet.count);
        check_answer(run.sheet.count + 1, REFUSED(17, 0));
        flip_bit(random_bit_of(0));
        check_answer(run.sheet.count + 1, REFUSED(17, 0));
    }
}

/* Records around the numbers where one could be cut off, and others. */
static void check_most(void)
{
    static const size_t numbers[] = {1,   2,    128,  129,  255,  256,  257,  512,
                                     513, 1023, 1024, 1025, 1364, 1365, 2047, 2048};
    size_t count = run.sheet.count;
    check_true(count);
    check_answer(count + 1, REFUSED(17, 0));
    for (unsigned i = 0; i < sizeof numbers / sizeof numbers[0]; i++) {
        if (numbers[i] <= count)
            check_bit(count, random_bit_of(numbers[i] - 1));
        check_bit(count, random_bit_of((size_t)random_below(count)));
    }
}

/* 2,048 flips, and 1,365 commands of three bytes. */
static void compare_most(uint32_t width)
{
    check_group("records of the most commands, width %" PRIu32, width);
    for (unsigned i = 0; i < FULL_RUNS; i++) {
        make_counted_sheet(width, MOST_RECORDS, 2 * MOST_RECORDS, &run.sheet);
        record(width);
        check_most();
        make_counted_sheet(width, MOST_OF_THREE, 3 * MOST_OF_THREE, &run.sheet);
        record(width);
        check_most();
    }
}

/* Another bit of these records: anywhere, of the same record, of the same word, in the same
   place of another word, or the same bit. */
static size_t random_second_bit(unsigned kind, size_t count, size_t bit)
{
    size_t number = bit / 8 / record_len(run.width), in_word = bit % run.width;
    size_t any = random_bit_of((size_t)random_below(count)), near = random_bit_of(number);
    switch (kind % 5) {
    case 0: return any;
    case 1: return near;
    case 2: return bit - in_word + near % run.width;
    case 3: return near - near % run.width + in_word;
    default: return bit;
    }
}

/* The first of two false bits is named, with all that its word has, and when it is flipped
   back the other; a bit that is flipped twice is true. */
static void compare_two_bits(uint32_t width)
{
    check_group("two bits flipped, width %" PRIu32, width);
    for (unsigned i = 0; i < RUNS; i++) {
        record_some(width);
        size_t count = run.sheet.count;
        size_t a = random_bit_of((size_t)random_below(count));
        size_t b = random_second_bit(i, count, a), first = a < b ? a : b;
        flip_bit(a);
        flip_bit(b);
        if (a == b) {
            check_true(count);
            continue;
        }
        check_false(count, first / 8);
        flip_bit(first);
        check_false(count, (a ^ b ^ first) / 8);
        flip_bit(a ^ b ^ first);
        check_true(count);
    }
}

/* ---------------- records of other states ---------------- */

/* Puts in place of a record, by its number from 0, the state before its command, the one
   that the run starts from, or the next record, which for the last one is the first;
   exchanges it with another; or moves the records from it on by one, either way. */
static void misplace_record(unsigned kind, size_t number)
{
    size_t one = record_len(run.width), count = run.sheet.count;
    size_t other = (size_t)random_below(count), next = number + 1 < count ? number + 1 : 0;
    uint8_t *record = run.records + number * one;
    const uint8_t *before = number > 0 ? run.truth + (number - 1) * one : run.start;
    switch (kind % 6) {
    case 0: memcpy(record, before, one); break;
    case 1: memcpy(record, run.start, one); break;
    case 2: memcpy(record, run.truth + next * one, one); break;
    case 3:
        memcpy(record, run.truth + other * one, one);
        memcpy(run.records + other * one, run.truth + number * one, one);
        break;
    case 4: memcpy(record, run.truth + next * one, (count - number - 1) * one); break;
    default:
        memcpy(record, before, one);
        memcpy(record + one, run.truth + number * one, (count - number - 1) * one);
    }
}

static void compare_misplaced(uint32_t width)
{
    unsigned seen = 0;
    check_group("records of other states, width %" PRIu32, width);
    for (unsigned i = 0; i < RUNS; i++) {
        record_some(width);
        misplace_record(i, (size_t)random_below(run.sheet.count));
        seen += check_changed(run.sheet.count);
    }
    check(seen > RUNS / 2, "%u runs had a false record", seen);
}

/* Records that follow from a false one are false too, as no command leads from two states
   to one. Each is named when those before it are repaired. */
static void compare_following(uint32_t width)
{
    size_t one = record_len(width);
    check_group("records that follow from a false one, width %" PRIu32, width);
    for (unsigned i = 0; i < CUT_RUNS; i++) {
        record_cut(width, i);
        size_t count = run.sheet.count, number = (size_t)random_below(count);
        flip_bit(random_bit_of(number));
        for (size_t k = number + 1; k < count; k++)
            record_command(width, &run.sheet, k, run.records + (k - 1) * one,
                           run.records + k * one);
        for (; number < count; number++) {
            size_t at = first_false_byte(count);
            check(at / one == number, "record %zu: a false state became true", number);
            check_false(count, at);
            memcpy(run.records + number * one, run.truth + number * one, one);
        }
        check_true(count);
    }
}

/* From vectors with another bit no record of the run holds, so the first is named. */
static void compare_other_starts(uint32_t width)
{
    check_group("another start, width %" PRIu32, width);
    for (unsigned i = 0; i < RUNS; i++) {
        record_some(width);
        size_t bit = (size_t)random_below(8 * record_len(width));
        run.start[bit / 8] ^= (uint8_t)(1u << bit % 8);
        check_answer(1 + (size_t)random_below(run.sheet.count), 1);
        check_true(0);
    }
}

/* ---------------- the archive's own records ---------------- */

/* By slices of one command, each from the offset that the one before reached. */
static void record_by_slices(void)
{
    size_t one = record_len(run.width);
    const uint8_t *before = run.start;
    uint64_t answer = 0;
    for (size_t number = 0; number < run.sheet.count; number++) {
        uint8_t *record = run.records + number * one;
        memcpy(record, before, one);
        answer = edonr_run_slice(run.width, record, one, run.sheet.bytes, run.sheet.len,
                                 edonr_slice_offset(answer), 1);
        before = record;
    }
}

/* By runs from the start, each of one command more. */
static void record_by_runs(void)
{
    size_t one = record_len(run.width), count = run.sheet.count;
    for (size_t number = 0; number < count; number++) {
        uint8_t *record = run.records + number * one;
        size_t end = number + 1 < count ? run.sheet.offsets[number + 1] : run.sheet.len;
        memcpy(record, run.start, one);
        edonr_run_forward(run.width, record, one, run.sheet.bytes, end);
    }
}

static void compare_own_records(uint32_t width)
{
    check_group("records by the archive itself, width %" PRIu32, width);
    for (unsigned i = 0; i < RUNS; i++) {
        make_sheet(width, random_sheet_len(), &run.sheet);
        record(width);
        memset(run.records, 0, run.sheet.count * record_len(width));
        if (i % 2 == 0)
            record_by_slices();
        else
            record_by_runs();
        check_true(run.sheet.count);
    }
}

/* ---------------- refusals ---------------- */

/* A sheet with a fault is refused as a run is, whatever the records are. */
static void check_faulty(uint64_t answer)
{
    size_t count = run.sheet.count, one = record_len(run.width);
    struct replay replay = replay_of(count);
    check_answer(0, answer);
    check_answer(1, answer);
    check_answer(count, answer);
    check_answer(count + 1, answer);
    replay.records_len = 1 + (size_t)random_below(count * one);
    uint64_t got = check_replay_call(&replay, NULL);
    check(got == answer, "records of %zu bytes: answered %" PRIx64, replay.records_len,
          got);
}

static void compare_faults(uint32_t width)
{
    uint8_t vectors[VECTORS_64];
    unsigned refused = 0;
    check_group("sheets with a fault, width %" PRIu32, width);
    for (unsigned i = 0; i < FAULTY_SHEETS; i++) {
        record_some(width);
        damage_sheet(&run.sheet);
        if (i % 2 == 0)
            damage_records(width, run.records, run.sheet.count);
        struct run whole = {FORWARD, width, run.sheet.bytes, run.sheet.len};
        memcpy(vectors, run.start, sizeof vectors);
        uint64_t answer = check_run_call(&whole, vectors, record_len(width));
        if (is_refusal(answer)) {
            check_faulty(answer);
            refused++;
        }
    }
    check(refused > FAULTY_SHEETS / 2, "%u sheets had a fault", refused);
}

/* Records of this length for two commands; where one is looked at, named is answered. */
static void check_length(size_t len, uint64_t named)
{
    size_t one = record_len(run.width);
    struct replay replay = replay_of(0);
    uint64_t want = len == 0 ? 0 : len <= 2 * one ? named : REFUSED(17, 0);
    replay.records_len = len;
    uint64_t got = check_replay_call(&replay, NULL);
    check(got == (len % one == 0 ? want : REFUSED(16, 0)),
          "records of %zu bytes: answered %" PRIx64, len, got);
}

/* Every length from none to more than three records, with all of them true and with the
   first one false. */
static void compare_lengths(uint32_t width)
{
    size_t most = 3 * record_len(width) + 1;
    check_group("records of 0 to %zu bytes, width %" PRIu32, most, width);
    make_counted_sheet(width, 2, 5, &run.sheet);
    record(width);
    for (size_t len = 0; len <= most; len++) {
        check_length(len, 0);
        run.records[0] ^= 1;
        check_length(len, 1);
        run.records[0] ^= 1;
    }
}

/* Widths, lengths, sheets and records, sound and not, in every combination. */
static void compare_refusal_order(void)
{
    static const uint32_t some_widths[] = {32, 64, 0, 33, 96, 0x80000020};
    static const size_t vector_lens[] = {0, VECTORS_32 / 2, VECTORS_32, VECTORS_64,
                                         VECTORS_64 + 1};
    static const size_t sheet_lens[] = {0, 1, 2, 3, 6, 34, 66, 68, 4096, 4097, 8192};
    static const size_t record_lens[] = {
        0, 1, 255, 256, 264, 512, 768, 1024, 2048, OVER_32, OVER_32 + 1, OVER_32 + 512,
        SIZE_MAX - 511, SIZE_MAX - 255, SIZE_MAX,
    };
    static const uint8_t codes[] = {0, 1, 5, 6, 7, 8, 9};
    enum { SHEETS = sizeof sheet_lens / sizeof sheet_lens[0] };
    enum { LENS = sizeof record_lens / sizeof record_lens[0] };
    static uint8_t sheet[RUN_CALL_SHEET];
    check_group("refusals in every combination");
    for (unsigned c = 0; c < sizeof codes; c++) {
        memset(sheet, codes[c], sizeof sheet);
        random_pattern(run.start, sizeof run.start);
        random_pattern(run.records, 2048);
        for (unsigned i = 0; i < 6 * 5 * SHEETS * LENS; i++) {
            struct replay replay = {some_widths[i / LENS / SHEETS / 5],
                                    run.start,
                                    vector_lens[i / LENS / SHEETS % 5],
                                    sheet,
                                    sheet_lens[i / LENS % SHEETS],
                                    run.records,
                                    record_lens[i % LENS]};
            check_replay_call(&replay, NULL);
        }
    }
}

/* ---------------- numbers, without the reference ---------------- */

struct point {
    const char *what;
    uint32_t width;
    size_t vectors_len, sheet_len;
    uint8_t sheet[8];
    size_t records_len;
    uint64_t answer;
};

/* Flip of V0 at 0, swap at 2 and flip of V7 at 5. */
#define THREE {6, 0, 5, 0, 1, 6, 7}

/* Answers over vectors and records of zeros, which these commands leave as they are; bytes
   of a sheet behind the eight given are 0. */
static const struct point points[] = {
    {"neither commands nor records", 32, VECTORS_32, 0, {0}, 0, 0},
    {"the same, wide", 64, VECTORS_64, 0, {0}, 0, 0},
    {"no records of three", 32, VECTORS_32, 7, THREE, 0, 0},
    {"one record of three", 32, VECTORS_32, 7, THREE, 256, 0},
    {"two records of three, wide", 64, VECTORS_64, 7, THREE, 1024, 0},
    {"all three", 32, VECTORS_32, 7, THREE, 768, 0},
    {"all three, wide", 64, VECTORS_64, 7, THREE, 1536, 0},
    {"a record and no command", 32, VECTORS_32, 0, {0}, 256, REFUSED(17, 0)},
    {"the same, wide", 64, VECTORS_64, 0, {0}, 512, REFUSED(17, 0)},
    {"four records of three", 32, VECTORS_32, 7, THREE, 1024, REFUSED(17, 0)},
    {"four records of three, wide", 64, VECTORS_64, 7, THREE, 2048, REFUSED(17, 0)},
    {"2,049 records", 64, VECTORS_64, 7, THREE, 2049 * 512, REFUSED(17, 0)},
    {"2^32 bytes", 32, VECTORS_32, 7, THREE, OVER_32, REFUSED(17, 0)},
    {"2^32 bytes and a record", 32, VECTORS_32, 7, THREE, OVER_32 + 256, REFUSED(17, 0)},
    {"the same, wide", 64, VECTORS_64, 7, THREE, OVER_32 + 512, REFUSED(17, 0)},
    {"2^63 bytes", 64, VECTORS_64, 7, THREE, (size_t)1 << 63, REFUSED(17, 0)},
    {"the most records", 32, VECTORS_32, 7, THREE, SIZE_MAX - 255, REFUSED(17, 0)},
    {"the most records, wide", 64, VECTORS_64, 7, THREE, SIZE_MAX - 511, REFUSED(17, 0)},
    {"one byte", 32, VECTORS_32, 7, THREE, 1, REFUSED(16, 0)},
    {"one byte and no command", 64, VECTORS_64, 0, {0}, 1, REFUSED(16, 0)},
    {"a vector", 32, VECTORS_32, 7, THREE, 32, REFUSED(16, 0)},
    {"four vectors", 32, VECTORS_32, 7, THREE, 128, REFUSED(16, 0)},
    {"a byte less than a record", 32, VECTORS_32, 7, THREE, 255, REFUSED(16, 0)},
    {"a byte more than three", 64, VECTORS_64, 7, THREE, 1537, REFUSED(16, 0)},
    {"a record of the other width", 64, VECTORS_64, 7, THREE, 256, REFUSED(16, 0)},
    {"a byte less than four records", 32, VECTORS_32, 7, THREE, 1023, REFUSED(16, 0)},
    {"a byte more than four records", 32, VECTORS_32, 7, THREE, 1025, REFUSED(16, 0)},
    {"a byte more than 2^32", 64, VECTORS_64, 7, THREE, OVER_32 + 1, REFUSED(16, 0)},
    {"any length", 32, VECTORS_32, 7, THREE, SIZE_MAX, REFUSED(16, 0)},
    {"command byte, no records", 32, VECTORS_32, 3, {6, 0, 9}, 0, REFUSED(8, 2)},
    {"command byte behind a record", 32, VECTORS_32, 3, {6, 0, 9}, 256, REFUSED(8, 2)},
    {"command byte and records", 64, VECTORS_64, 3, {6, 0, 9}, 1, REFUSED(8, 2)},
    {"command byte and count", 64, VECTORS_64, 3, {6, 0, 9}, 4096, REFUSED(8, 2)},
    {"cut and records", 32, VECTORS_32, 4, {6, 0, 1, 0}, 255, REFUSED(9, 2)},
    {"cut and count", 64, VECTORS_64, 1, {6}, 1024, REFUSED(9, 0)},
    {"place 8 and records", 32, VECTORS_32, 4, {6, 0, 6, 8}, 257, REFUSED(10, 2)},
    {"place 8 and count", 64, VECTORS_64, 4, {6, 8, 6, 0}, OVER_32, REFUSED(10, 0)},
    {"d = s and records", 32, VECTORS_32, 5, {6, 0, 5, 1, 1}, 1, REFUSED(11, 2)},
    {"d = s and count", 64, VECTORS_64, 3, {5, 1, 1}, 1024, REFUSED(11, 0)},
    {"4,097 bytes", 32, VECTORS_32, 4097, {6}, 0, REFUSED(7, 0)},
    {"4,097 bytes and records", 64, VECTORS_64, 4097, {6}, 1, REFUSED(7, 0)},
    {"4,097 bytes and count", 64, VECTORS_64, 4097, {9}, OVER_32, REFUSED(7, 0)},
    {"a sheet of 2^32 bytes more", 32, VECTORS_32, OVER_32 + 7, THREE, 256, REFUSED(7, 0)},
    {"four vectors, no records", 32, 4 * 32, 7, THREE, 0, REFUSED(6, 0)},
    {"the other width's vectors", 64, VECTORS_32, 7, THREE, 512, REFUSED(6, 0)},
    {"2^32 bytes of vectors more", 32, OVER_32 + 256, 7, THREE, 256, REFUSED(6, 0)},
    {"vectors, sheet and records", 64, 0, 4097, {9}, 1, REFUSED(6, 0)},
    {"width", 33, VECTORS_32, 7, THREE, 256, REFUSED(5, 0)},
    {"width and what it would take", 33, 264, 7, THREE, 264, REFUSED(5, 0)},
    {"width 0, nothing lent", 0, 0, 0, {0}, 0, REFUSED(5, 0)},
    {"width, vectors, sheet, records", 96, 1, 4097, {9}, SIZE_MAX, REFUSED(5, 0)},
    {"a width with another bit", 0x80000020, VECTORS_32, 7, THREE, 256, REFUSED(5, 0)},
};

static void check_points(void)
{
    static uint8_t sheet[RUN_CALL_SHEET];
    check_group("answers as numbers");
    memset(run.start, 0, sizeof run.start);
    memset(run.records, 0, sizeof run.records);
    for (unsigned n = 0; n < sizeof points / sizeof points[0]; n++) {
        const struct point *p = &points[n];
        struct replay replay = {p->width,     run.start,   p->vectors_len, sheet,
                                p->sheet_len, run.records, p->records_len};
        memset(sheet, 0, sizeof sheet);
        memcpy(sheet, p->sheet, sizeof p->sheet);
        uint64_t got = check_replay_call(&replay, NULL);
        check(got == p->answer, "%s: answered %" PRIx64, p->what, got);
    }
    check(EDONR_REFUSED_RECORDS == 16 && EDONR_REFUSED_RECORD_COUNT == 17,
          "the header's numbers");
}

struct false_point {
    uint32_t width;
    size_t at;
    uint64_t answer, offset, place, word, found;
};

/* A byte of three records over zeros that is not 0, but 80, and what has to be found. */
static const struct false_point false_points[] = {
    {32, 0, 1, 0, 0, 0, 0x80},
    {32, 3, 1, 0, 0, 0, 0x80000000},
    {32, 4, 1, 0, 0, 1, 0x80},
    {32, 31, 1, 0, 0, 7, 0x80000000},
    {32, 32, 1, 0, 1, 0, 0x80},
    {32, 128, 1, 0, 4, 0, 0x80},
    {32, 255, 1, 0, 7, 7, 0x80000000},
    {32, 256, 2, 2, 0, 0, 0x80},
    {32, 511, 2, 2, 7, 7, 0x80000000},
    {32, 512, 3, 5, 0, 0, 0x80},
    {32, 767, 3, 5, 7, 7, 0x80000000},
    {64, 0, 1, 0, 0, 0, 0x80},
    {64, 4, 1, 0, 0, 0, 0x8000000000},
    {64, 7, 1, 0, 0, 0, 0x8000000000000000},
    {64, 8, 1, 0, 0, 1, 0x80},
    {64, 63, 1, 0, 0, 7, 0x8000000000000000},
    {64, 64, 1, 0, 1, 0, 0x80},
    {64, 256, 1, 0, 4, 0, 0x80},
    {64, 511, 1, 0, 7, 7, 0x8000000000000000},
    {64, 512, 2, 2, 0, 0, 0x80},
    {64, 1535, 3, 5, 7, 7, 0x8000000000000000},
};

static void check_false_points(void)
{
    static const uint8_t sheet[7] = THREE;
    check_group("findings as numbers");
    memset(run.start, 0, sizeof run.start);
    memset(run.records, 0, sizeof run.records);
    for (unsigned n = 0; n < sizeof false_points / sizeof false_points[0]; n++) {
        const struct false_point *p = &false_points[n];
        size_t one = record_len(p->width);
        struct replay replay = {p->width, run.start, one, sheet, 7, run.records, 3 * one};
        uint64_t want[FINDING_VALUES] = {p->offset, p->place, p->word, p->found, 0};
        uint64_t got[FINDING_VALUES];
        run.records[p->at] = 0x80;
        uint64_t answer = check_replay_call(&replay, got);
        run.records[p->at] = 0;
        check(answer == p->answer && memcmp(got, want, sizeof want) == 0,
              "width %" PRIu32 ", byte %zu: answered %" PRIx64, p->width, p->at, answer);
    }
}

/* V4 = 1, 2, .., 8 flipped is 8, 7, .., 1, behind a flip of zeros. In the second record the
   flip was not done, or all of its words are right but the sixth, which should be 3. */
static void check_header_names(void)
{
    static const uint8_t flips[4] = {6, 0, 6, 4};
    enum { V4 = 4 * 32, SECOND = RECORD_32 };
    uint8_t vectors[VECTORS_32] = {0}, written[2 * RECORD_32];
    struct edonr_finding f;
    check_group("findings by the header's names");
    for (uint8_t i = 0; i < 8; i++)
        vectors[V4 + 4 * i] = i + 1;
    memcpy(written, vectors, RECORD_32);
    memcpy(written + SECOND, vectors, RECORD_32);
    check(edonr_first_false_record(32, vectors, VECTORS_32, flips, 4, written,
                                   sizeof written, &f) == 2,
          "a flip that was not done");
    check(f.offset == 2 && f.place == 4 && f.word == 0 && f.found == 1 && f.expected == 8,
          "what is found where a flip was not done");
    for (uint8_t i = 0; i < 8; i++)
        written[SECOND + V4 + 4 * i] = i == 5 ? 9 : 8 - i;
    check(edonr_first_false_record(32, vectors, VECTORS_32, flips, 4, written,
                                   sizeof written, &f) == 2,
          "a flip with a wrong word");
    check(f.offset == 2 && f.place == 4 && f.word == 5 && f.found == 9 && f.expected == 3,
          "what is found in the wrong word");
}

int main(int argc, char **argv)
{
    check_program("compare_replay", argc, argv);
    reference_init();
    for (unsigned i = 0; i < 2; i++) {
        compare_random(widths[i]);
        compare_cut_commands(widths[i]);
        compare_places(widths[i]);
        compare_one_bit(widths[i]);
        compare_words(widths[i]);
        compare_counts(widths[i]);
        compare_most(widths[i]);
        compare_two_bits(widths[i]);
        compare_misplaced(widths[i]);
        compare_following(widths[i]);
        compare_other_starts(widths[i]);
        compare_own_records(widths[i]);
        compare_faults(widths[i]);
        compare_lengths(widths[i]);
    }
    compare_refusal_order();
    check_points();
    check_false_points();
    check_header_names();
    return check_finish();
}
