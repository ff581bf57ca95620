/*
 * Slices of sheets by the archive against the reference, bit for bit, and chains of slices
 * against whole runs.
 */
#include <inttypes.h>
#include <stdbool.h>
#include <string.h>

#include "edonr.h"
#include "harness/check.h"
#include "harness/random.h"
#include "harness/run_call.h"
#include "harness/sheet_maker.h"
#include "harness/slice_call.h"
#include "reference/answer.h"
#include "reference/division.h"

enum {
    RANDOM_SHEETS = 15000,
    SLICES = 3, /* of each random sheet */
    FULL_SHEETS = 50,
    FAULTY_SHEETS = 3000,
    CUT_SHEETS = 100, /* at every offset, or by every budget */
    CHAINS = 1500,
    PAIRS = 3000,
    MOST_COMMANDS = SHEET_MOST_BYTES / 2,
    MOST_OF_THREE = SHEET_MOST_BYTES / 3,
    MOST_BUDGET = 65535
};

static const uint32_t widths[2] = {32, 64};

#define OVER_32 ((uint64_t)1 << 32)
#define REFUSED(number, offset) (((uint64_t)(number) << 32) + (offset))
#define REACHED(units, offset) (((uint64_t)(units) << 16) + (offset))

/* ---------------- arguments ---------------- */

/* Where a command of a sheet begins as made, by its number; the sheet's length for the
   number behind the last. */
static size_t start_of(const struct sheet *sheet, size_t number)
{
    return number < sheet->count ? sheet->offsets[number] : sheet->len;
}

/* Mostly the first byte of a command or the sheet's length, else an offset close to one,
   inside a command or behind the sheet, or one that only its lower 16 bits make right. */
static uint32_t random_offset(const struct sheet *sheet)
{
    static const uint32_t some[] = {0xFFFFFFFF, 0x80000000, 0x10000, 0xFFFF, 4097, 4096};
    uint32_t start = (uint32_t)start_of(sheet, (size_t)random_below(sheet->count + 1));
    switch (random_below(12)) {
    case 0: return (uint32_t)random_near(start);
    case 1: return (uint32_t)random_below(sheet->len + 1);
    case 2: return (uint32_t)(sheet->len + random_below(4));
    case 3: return start + ((uint32_t)random_bits(16) << 16);
    case 4: return (uint32_t)random_bits(32);
    case 5: return some[random_below(sizeof some / sizeof some[0])];
    default: return start;
    }
}

/* None, few, around the number of commands that are left, as many as can be, or any. */
static uint16_t random_budget(size_t left)
{
    switch (random_below(8)) {
    case 0: return 0;
    case 1: return 1;
    case 2: return 2;
    case 3: return (uint16_t)(left - 1 + random_below(3));
    case 4: return MOST_BUDGET;
    case 5: return (uint16_t)random_bits(16);
    default: return (uint16_t)random_below(left + 1);
    }
}

/* ---------------- slices ---------------- */

/* A slice over random vectors. */
static uint64_t check_slice(const struct slice *slice, size_t vectors_len)
{
    uint8_t vectors[RUN_CALL_VECTORS];
    random_pattern(vectors, vectors_len <= sizeof vectors ? vectors_len : 0);
    return check_slice_call(slice, vectors, vectors_len);
}

/* Slices of a sheet that may be damaged, mostly over vectors of the right length. */
static void check_random_slices(uint32_t width, const struct sheet *sheet)
{
    for (unsigned i = 0; i < SLICES; i++) {
        size_t len = EDONR_PLACES * (size_t)width;
        struct slice slice = {width, sheet->bytes, sheet->len, random_offset(sheet), 0};
        slice.budget = random_budget(sheet->count);
        check_slice(&slice, random_below(16) == 0 ? (size_t)random_near(len) : len);
    }
}

/* The units of commands of a sound sheet, from one number to another, by their codes. */
static uint64_t units_between(const struct sheet *sheet, size_t first, size_t last)
{
    uint64_t units = 0;
    for (; first < last; first++) {
        uint8_t code = sheet->bytes[sheet->offsets[first]];
        units += code != 5 && code != 6;
    }
    return units;
}

/* A slice of a sound sheet from a command on: it has to answer what the sheet has, as it
   was made, and to leave what a run leaves of the bytes from start to end of the slice. */
static void check_sound_slice(uint32_t width, const struct sheet *sheet, size_t first,
                              uint16_t budget)
{
    uint8_t by_slice[VECTORS_64], by_run[VECTORS_64];
    size_t len = EDONR_PLACES * (size_t)width;
    size_t last = budget < sheet->count - first ? first + budget : sheet->count;
    size_t from = start_of(sheet, first), to = start_of(sheet, last);
    uint64_t units = units_between(sheet, first, last);
    struct slice slice = {width, sheet->bytes, sheet->len, (uint32_t)from, budget};
    struct run run = {FORWARD, width, sheet->bytes + from, to - from};
    random_pattern(by_slice, len);
    memcpy(by_run, by_slice, len);
    uint64_t got = check_slice_call(&slice, by_slice, len);
    check(got == REACHED(units, to), "command %zu, budget %u: answered %" PRIx64, first,
          (unsigned)budget, got);
    check(check_run_call(&run, by_run, len) == units && memcmp(by_slice, by_run, len) == 0,
          "command %zu, budget %u: the run of these bytes does something else", first,
          (unsigned)budget);
}

/* From a random command on, or from the end. */
static void check_sound_slices(uint32_t width, const struct sheet *sheet)
{
    for (unsigned i = 0; i < SLICES; i++) {
        size_t first = (size_t)random_below(sheet->count + 1);
        check_sound_slice(width, sheet, first, random_budget(sheet->count - first));
    }
}

static void compare_random(uint32_t width)
{
    static struct sheet sheet;
    check_group("random sheets, width %" PRIu32, width);
    for (unsigned i = 0; i < RANDOM_SHEETS; i++) {
        make_sheet(width, random_sheet_len(), &sheet);
        if (i % 3 == 0)
            check_sound_slices(width, &sheet);
        if (i % 3 == 1)
            damage_sheet(&sheet);
        check_random_slices(random_width(width), &sheet);
    }
}

/* Every length that commands can fill, and one byte more than a sheet may have. */
static void compare_lengths(uint32_t width)
{
    static struct sheet sheet;
    check_group("sheets of 0 to %d bytes, width %" PRIu32, SHEET_MOST_BYTES + 1, width);
    for (size_t len = 0; len <= SHEET_MOST_BYTES; len += len == 0 ? 2 : 1) {
        make_sheet(width, len, &sheet);
        check_random_slices(width, &sheet);
    }
    for (unsigned i = 0; i < FULL_SHEETS; i++) {
        make_sheet(width, SHEET_MOST_BYTES, &sheet);
        sheet.bytes[sheet.len++] = (uint8_t)(i % 10);
        check_random_slices(width, &sheet);
    }
}

/* Every number of commands, each at a random length that so many can have. */
static void compare_counts(uint32_t width)
{
    static struct sheet sheet;
    check_group("sheets of 0 to %d commands, width %" PRIu32, MOST_COMMANDS, width);
    for (size_t count = 0; count <= MOST_COMMANDS; count++) {
        make_counted_sheet(width, count, random_counted_len(count), &sheet);
        check_sound_slices(width, &sheet);
    }
}

/* The most commands, 2,048 flips, and 1,365 commands of three bytes, by budgets around the
   numbers where one could be cut off. */
static void compare_most(uint32_t width)
{
    static const uint16_t budgets[] = {0,    1,    127,  128,   255,   256,   257,
                                       511,  512,  1023, 1024,  1364,  1365,  1366,
                                       2047, 2048, 2049, 32767, 32768, 65280, MOST_BUDGET};
    static struct sheet sheets[2];
    check_group("sheets of the most commands, width %" PRIu32, width);
    for (unsigned i = 0; i < FULL_SHEETS; i++) {
        uint16_t budget = budgets[i % (sizeof budgets / sizeof budgets[0])];
        make_counted_sheet(width, MOST_COMMANDS, 2 * MOST_COMMANDS, &sheets[0]);
        make_counted_sheet(width, MOST_OF_THREE, 3 * MOST_OF_THREE, &sheets[1]);
        for (unsigned n = 0; n < 2; n++) {
            check_sound_slice(width, &sheets[n], 0, budget);
            check_sound_slice(width, &sheets[n], (size_t)random_below(sheets[n].count),
                              budget);
        }
    }
}

/* Any offset of a short sheet, and a budget that may be its number of commands; and the
   first command alone. */
static void check_short_sheet(uint32_t width, const uint8_t *sheet, size_t sheet_len)
{
    struct slice slice = {width, sheet, sheet_len, (uint32_t)random_below(sheet_len + 2),
                          0};
    slice.budget = random_budget(2);
    check_slice(&slice, EDONR_PLACES * (size_t)width);
    slice.offset = 0;
    check_slice(&slice, EDONR_PLACES * (size_t)width);
    slice.budget = 1;
    check_slice(&slice, EDONR_PLACES * (size_t)width);
}

static void compare_cut_commands(uint32_t width)
{
    check_group("one command, cut anywhere, width %" PRIu32, width);
    each_cut_command(width, check_short_sheet);
}

/* A refusal must not do the flip that stands in front, nor must a budget of 1 accept it. */
static void compare_places(uint32_t width)
{
    check_group("places, width %" PRIu32, width);
    each_pair_of_places(width, check_short_sheet);
}

/* A short sheet, but for the first, which is full. */
static void make_cut_sheet(uint32_t width, unsigned number, struct sheet *sheet)
{
    size_t len = number == 0 ? SHEET_MOST_BYTES : 2 + (size_t)random_below(160);
    make_sheet(width, len, sheet);
}

/* Every offset from 0 to behind the sheet: 14 is answered exactly where no command begins
   and the sheet does not end, and wherever 2^16 or more are added. */
static void compare_offsets(uint32_t width)
{
    static struct sheet sheet;
    check_group("every offset, width %" PRIu32, width);
    for (unsigned i = 0; i < CUT_SHEETS; i++) {
        make_cut_sheet(width, i, &sheet);
        for (size_t offset = 0, number = 0; offset <= sheet.len + 2; offset++) {
            struct slice slice = {width, sheet.bytes, sheet.len, (uint32_t)offset,
                                  random_budget(sheet.count)};
            bool begins = start_of(&sheet, number) == offset;
            number += begins;
            uint64_t got = check_slice(&slice, EDONR_PLACES * (size_t)width);
            check(begins ? !is_refusal(got) : got == REFUSED(14, 0),
                  "offset %zu: answered %" PRIx64, offset, got);
            slice.offset += (uint32_t)(1 + random_below(0xFFFF)) << 16;
            got = check_slice(&slice, EDONR_PLACES * (size_t)width);
            check(got == REFUSED(14, 0), "offset %" PRIu32 ": answered %" PRIx64,
                  slice.offset, got);
        }
    }
}

/* Every budget from none to more than there are commands. */
static void compare_budgets(uint32_t width)
{
    static struct sheet sheet;
    check_group("every budget, width %" PRIu32, width);
    for (unsigned i = 0; i < CUT_SHEETS; i++) {
        make_cut_sheet(width, i, &sheet);
        size_t first = i == 0 ? 0 : (size_t)random_below(sheet.count + 1);
        for (size_t budget = 0; budget <= sheet.count - first + 2; budget++)
            check_sound_slice(width, &sheet, first, (uint16_t)budget);
    }
}

/* ---------------- refusals ---------------- */

/* A slice has to be refused as the whole sheet is. */
static void check_refused(uint32_t width, const struct sheet *sheet, uint32_t offset,
                          uint16_t budget, uint64_t answer)
{
    struct slice slice = {width, sheet->bytes, sheet->len, offset, budget};
    uint64_t got = check_slice(&slice, EDONR_PLACES * (size_t)width);
    check(got == answer,
          "offset %" PRIu32 ", budget %u: answered %" PRIx64 ", and the run %" PRIx64,
          offset, (unsigned)budget, got, answer);
}

/* A sheet with a fault, wherever a slice starts and whatever it would do: it may end before
   the fault, start behind it, do nothing, or start where no command begins. */
static void check_faulty(uint32_t width, const struct sheet *sheet, uint64_t answer)
{
    uint32_t last = (uint32_t)sheet->offsets[sheet->count - 1];
    uint32_t fault = edonr_offset(answer), any = random_offset(sheet);
    check_refused(width, sheet, 0, 0, answer);
    check_refused(width, sheet, 0, 1, answer);
    check_refused(width, sheet, 0, MOST_BUDGET, answer);
    check_refused(width, sheet, fault, 0, answer);
    check_refused(width, sheet, last, 1, answer);
    check_refused(width, sheet, last + 1, 1, answer);
    check_refused(width, sheet, fault + 1, 0, answer);
    check_refused(width, sheet, (uint32_t)sheet->len, 0, answer);
    check_refused(width, sheet, any, random_budget(sheet->count), answer);
}

static void compare_faults(uint32_t width)
{
    static struct sheet sheet;
    uint8_t vectors[VECTORS_64];
    unsigned refused = 0;
    check_group("sheets with a fault, width %" PRIu32, width);
    for (unsigned i = 0; i < FAULTY_SHEETS; i++) {
        size_t len = random_sheet_len();
        make_sheet(width, len == 0 ? 2 : len, &sheet);
        damage_sheet(&sheet);
        struct run run = {FORWARD, width, sheet.bytes, sheet.len};
        random_pattern(vectors, sizeof vectors);
        uint64_t answer = check_run_call(&run, vectors, EDONR_PLACES * (size_t)width);
        if (is_refusal(answer)) {
            check_faulty(width, &sheet, answer);
            refused++;
        }
    }
    check(refused > FAULTY_SHEETS / 2, "%u sheets had a fault", refused);
}

/* Widths, lengths, sheets and starts, sound and not, in every combination. */
static void compare_refusal_order(void)
{
    static const uint32_t some_widths[] = {32, 64, 0, 33, 96, 0x80000020};
    static const size_t vector_lens[] = {0, VECTORS_32 / 2, VECTORS_32, VECTORS_64,
                                         VECTORS_64 + 1};
    static const size_t sheet_lens[] = {0, 1, 2, 3, 6, 34, 66, 68, 4096, 4097, 8192};
    static const uint32_t offsets[] = {0, 1, 2, 34, 4096, 4097, 0x10000, 0xFFFFFFFF};
    static const uint16_t budgets[] = {0, 1, MOST_BUDGET};
    static const uint8_t codes[] = {0, 1, 5, 6, 7, 8, 9};
    enum { SHEETS = sizeof sheet_lens / sizeof sheet_lens[0], STARTS = 8 * 3 };
    static uint8_t sheet[RUN_CALL_SHEET];
    check_group("refusals in every combination");
    for (unsigned c = 0; c < sizeof codes; c++) {
        memset(sheet, codes[c], sizeof sheet);
        for (unsigned i = 0; i < 6 * 5 * SHEETS * STARTS; i++) {
            struct slice slice = {some_widths[i / STARTS / SHEETS / 5], sheet,
                                  sheet_lens[i / STARTS % SHEETS], offsets[i % 8],
                                  budgets[i / 8 % 3]};
            check_slice(&slice, vector_lens[i / STARTS / SHEETS % 5]);
        }
    }
}

struct point {
    const char *what;
    uint32_t width;
    size_t vectors_len, sheet_len;
    uint8_t sheet[8];
    uint32_t offset;
    uint16_t budget;
    uint64_t answer;
};

/* lmul at 0, flip at 3 and swap at 5. */
#define THREE {1, 0, 1, 6, 0, 5, 0, 1}

/* kmul, with a K in which flips could be read. */
#define KMUL {7, 0, 6, 0, 6, 0, 6, 0}

/* Answers as numbers, without the reference; bytes behind the eight given are 0. */
static const struct point points[] = {
    {"an empty sheet", 32, VECTORS_32, 0, {0}, 0, 0, REACHED(0, 0)},
    {"an empty sheet, any budget", 64, VECTORS_64, 0, {0}, 0, 65535, REACHED(0, 0)},
    {"an empty sheet from 1", 32, VECTORS_32, 0, {0}, 1, 1, REFUSED(14, 0)},
    {"three commands, none done", 32, VECTORS_32, 8, THREE, 0, 0, REACHED(0, 0)},
    {"the first of three", 32, VECTORS_32, 8, THREE, 0, 1, REACHED(1, 3)},
    {"the first of three, wide", 64, VECTORS_64, 8, THREE, 0, 1, REACHED(1, 3)},
    {"two of three", 32, VECTORS_32, 8, THREE, 0, 2, REACHED(1, 5)},
    {"all three", 32, VECTORS_32, 8, THREE, 0, 3, REACHED(1, 8)},
    {"all three, wide", 64, VECTORS_64, 8, THREE, 0, 3, REACHED(1, 8)},
    {"a budget of one more", 32, VECTORS_32, 8, THREE, 0, 4, REACHED(1, 8)},
    {"any budget", 64, VECTORS_64, 8, THREE, 0, 65535, REACHED(1, 8)},
    {"from the flip, none done", 32, VECTORS_32, 8, THREE, 3, 0, REACHED(0, 3)},
    {"the flip", 64, VECTORS_64, 8, THREE, 3, 1, REACHED(0, 5)},
    {"flip and swap", 32, VECTORS_32, 8, THREE, 3, 2, REACHED(0, 8)},
    {"the swap", 64, VECTORS_64, 8, THREE, 5, 1, REACHED(0, 8)},
    {"the swap, any budget", 32, VECTORS_32, 8, THREE, 5, 65535, REACHED(0, 8)},
    {"from the end, none done", 32, VECTORS_32, 8, THREE, 8, 0, REACHED(0, 8)},
    {"from the end, any budget", 64, VECTORS_64, 8, THREE, 8, 65535, REACHED(0, 8)},
    {"kmul", 32, VECTORS_32, 34, KMUL, 0, 1, REACHED(1, 34)},
    {"kmul, wide", 64, VECTORS_64, 66, KMUL, 0, 1, REACHED(1, 66)},
    {"behind kmul", 64, VECTORS_64, 66, KMUL, 66, 1, REACHED(0, 66)},
    {"from the first place", 32, VECTORS_32, 8, THREE, 1, 1, REFUSED(14, 0)},
    {"from the second place", 64, VECTORS_64, 8, THREE, 2, 0, REFUSED(14, 0)},
    {"from the flip's place", 32, VECTORS_32, 8, THREE, 4, 65535, REFUSED(14, 0)},
    {"from the last byte", 32, VECTORS_32, 8, THREE, 7, 1, REFUSED(14, 0)},
    {"from behind the end", 32, VECTORS_32, 8, THREE, 9, 0, REFUSED(14, 0)},
    {"from inside K", 32, VECTORS_32, 34, KMUL, 2, 1, REFUSED(14, 0)},
    {"from the other width's end", 64, VECTORS_64, 66, KMUL, 34, 1, REFUSED(14, 0)},
    {"from 4,096", 32, VECTORS_32, 8, THREE, 4096, 1, REFUSED(14, 0)},
    {"from 4,097", 64, VECTORS_64, 8, THREE, 4097, 1, REFUSED(14, 0)},
    {"from 2^16", 32, VECTORS_32, 8, THREE, 0x10000, 1, REFUSED(14, 0)},
    {"from 2^16 + 3", 64, VECTORS_64, 8, THREE, 0x10003, 1, REFUSED(14, 0)},
    {"from 2^16 + 8", 32, VECTORS_32, 8, THREE, 0x10008, 0, REFUSED(14, 0)},
    {"from 2^31", 64, VECTORS_64, 8, THREE, 0x80000000, 1, REFUSED(14, 0)},
    {"from 2^32 - 1", 32, VECTORS_32, 8, THREE, 0xFFFFFFFF, 1, REFUSED(14, 0)},
    {"command byte behind", 32, VECTORS_32, 3, {6, 0, 9}, 0, 1, REFUSED(8, 2)},
    {"command byte, budget 0", 64, VECTORS_64, 3, {6, 0, 9}, 0, 0, REFUSED(8, 2)},
    {"command byte and start", 32, VECTORS_32, 3, {6, 0, 9}, 1, 1, REFUSED(8, 2)},
    {"command byte before", 32, VECTORS_32, 3, {6, 0, 9}, 3, 1, REFUSED(8, 2)},
    {"cut behind", 32, VECTORS_32, 4, {6, 0, 1, 0}, 0, 1, REFUSED(9, 2)},
    {"cut, from the other width's end", 64, VECTORS_64, 34, {7}, 34, 1, REFUSED(9, 0)},
    {"cut and start", 32, VECTORS_32, 33, {7}, 0x10000, 0, REFUSED(9, 0)},
    {"place 8 before", 64, VECTORS_64, 4, {6, 8, 6, 0}, 2, 1, REFUSED(10, 0)},
    {"place 8 and start", 32, VECTORS_32, 2, {6, 8}, 3, 1, REFUSED(10, 0)},
    {"d = s before", 32, VECTORS_32, 5, {5, 1, 1, 6, 0}, 3, 1, REFUSED(11, 0)},
    {"d = s behind", 64, VECTORS_64, 5, {6, 0, 5, 1, 1}, 0, 1, REFUSED(11, 2)},
    {"d = s and start", 64, VECTORS_64, 3, {5, 1, 1}, 0xFFFFFFFF, 1, REFUSED(11, 0)},
    {"4,097 bytes and start", 32, VECTORS_32, 4097, {6}, 1, 1, REFUSED(7, 0)},
    {"4,097 bytes from the end", 64, VECTORS_64, 4097, {6}, 4097, 0, REFUSED(7, 0)},
    {"2^32 bytes more", 32, VECTORS_32, OVER_32 + 2, {6, 0}, 0, 1, REFUSED(7, 0)},
    {"2^32 bytes", 64, VECTORS_64, OVER_32, {0}, 0, 0, REFUSED(7, 0)},
    {"four vectors and start", 32, 4 * 32, 2, {6, 0}, 1, 1, REFUSED(6, 0)},
    {"the other width's length", 64, VECTORS_32, 2, {6, 0}, 0, 0, REFUSED(6, 0)},
    {"a length of 2^32 more", 32, OVER_32 + VECTORS_32, 2, {6, 0}, 0, 1, REFUSED(6, 0)},
    {"lengths, sheet and start", 64, 0, 4097, {9}, 9999, 1, REFUSED(6, 0)},
    {"width and start", 33, VECTORS_32, 2, {6, 0}, 1, 1, REFUSED(5, 0)},
    {"width, lengths, sheet, start", 0, 1, 4097, {9}, 0xFFFFFFFF, 0, REFUSED(5, 0)},
};

static void check_points(void)
{
    static uint8_t sheet[RUN_CALL_SHEET];
    check_group("answers as numbers");
    for (unsigned n = 0; n < sizeof points / sizeof points[0]; n++) {
        const struct point *p = &points[n];
        struct slice slice = {p->width, sheet, p->sheet_len, p->offset, p->budget};
        memset(sheet, 0, sizeof sheet);
        memcpy(sheet, p->sheet, sizeof p->sheet);
        uint64_t got = check_slice(&slice, p->vectors_len);
        check(got == p->answer, "%s: answered %" PRIx64, p->what, got);
    }
    check(EDONR_REFUSED_START == 14, "the header's number");
    check(edonr_slice_offset(0x05550FFF) == 0x0FFF && edonr_slice_units(0x05550FFF) == 1365,
          "the header's parts of an answer");
    check(edonr_slice_offset(0x1000) == 4096 && edonr_slice_units(0x1000) == 0,
          "the header's parts of an answer without units");
}

/* ---------------- chains ---------------- */

/* How the budgets of a chain are chosen: all of them 1, few with zeros among them, some,
   or any. */
static uint16_t chain_budget(unsigned kind, size_t left)
{
    switch (kind % 4) {
    case 0: return 1;
    case 1: return (uint16_t)random_below(4);
    case 2: return (uint16_t)random_below(64);
    default: return random_budget(left);
    }
}

/* A slice that starts one byte further, where no command begins, is refused and leaves the
   vectors, so that it may stand anywhere in a chain. */
static void check_wrong_start(struct slice slice, uint8_t *vectors, size_t vectors_len)
{
    slice.offset++;
    uint64_t got = check_slice_call(&slice, vectors, vectors_len);
    check(got == REFUSED(14, 0), "one byte further: answered %" PRIx64, got);
}

/* Slices from the front until their budgets sum up to the number of commands, and one more.
   No slice is refused, and the end is reached just then. Returns the units of all. */
static uint64_t run_chain(uint32_t width, const struct sheet *sheet, unsigned kind,
                          uint8_t *vectors)
{
    size_t len = EDONR_PLACES * (size_t)width, budgets = 0;
    struct slice slice = {width, sheet->bytes, sheet->len, 0, 0};
    uint64_t units = 0;
    for (bool ended = false; !ended;) {
        ended = budgets >= sheet->count;
        slice.budget = chain_budget(kind, ended ? 0 : sheet->count - budgets);
        budgets += slice.budget;
        if (random_below(4) == 0)
            check_wrong_start(slice, vectors, len);
        uint64_t got = check_slice_call(&slice, vectors, len);
        slice.offset = edonr_slice_offset(got);
        units += edonr_slice_units(got);
        check(!is_refusal(got) && (slice.offset == sheet->len) == (budgets >= sheet->count),
              "budgets of %zu for %zu commands: answered %" PRIx64, budgets, sheet->count,
              got);
    }
    return units;
}

/* The whole run and a chain do the same, and a backward run is the way home from both. */
static void check_chain(uint32_t width, const struct sheet *sheet, unsigned kind)
{
    uint8_t start[VECTORS_64], by_run[VECTORS_64], by_chain[VECTORS_64];
    size_t len = EDONR_PLACES * (size_t)width;
    struct run whole = {FORWARD, width, sheet->bytes, sheet->len};
    struct run home = {BACKWARD, width, sheet->bytes, sheet->len};
    random_pattern(start, len);
    memcpy(by_run, start, len);
    memcpy(by_chain, start, len);
    uint64_t units = check_run_call(&whole, by_run, len);
    uint64_t summed = run_chain(width, sheet, kind, by_chain);
    check(summed == units, "%zu commands: %" PRIu64 " units in all, by slices %" PRIu64,
          sheet->count, units, summed);
    check(memcmp(by_chain, by_run, len) == 0,
          "%zu commands: the chain leaves other vectors", sheet->count);
    check(check_run_call(&home, by_chain, len) == units &&
              memcmp(by_chain, start, len) == 0,
          "%zu commands: the start is not found again", sheet->count);
}

static void compare_chains(uint32_t width)
{
    static struct sheet sheet;
    check_group("chains of slices, width %" PRIu32, width);
    for (unsigned i = 0; i < CHAINS; i++) {
        size_t count = (size_t)random_below(MOST_OF_THREE);
        if (i % 25 == 0)
            make_counted_sheet(width, count, random_counted_len(count), &sheet);
        else
            make_sheet(width, random_sheet_len(), &sheet);
        check_chain(width, &sheet, i);
    }
}

/* ---------------- two slices for one ---------------- */

/* A slice, then one from where it ended, are one slice of both budgets. */
static void check_pair(uint32_t width, const struct sheet *sheet)
{
    uint8_t by_two[VECTORS_64], by_one[VECTORS_64];
    size_t len = EDONR_PLACES * (size_t)width;
    size_t number = (size_t)random_below(sheet->count + 1), left = sheet->count - number;
    uint16_t b = random_budget(left), c = random_budget(left);
    if (b + c > MOST_BUDGET)
        c = (uint16_t)(MOST_BUDGET - b);
    struct slice one = {width, sheet->bytes, sheet->len, (uint32_t)start_of(sheet, number),
                        (uint16_t)(b + c)};
    struct slice first = one, second = one;
    random_pattern(by_two, len);
    memcpy(by_one, by_two, len);
    first.budget = b;
    uint64_t got_first = check_slice_call(&first, by_two, len);
    second.offset = edonr_slice_offset(got_first);
    second.budget = c;
    uint64_t got_second = check_slice_call(&second, by_two, len);
    uint64_t got = check_slice_call(&one, by_one, len);
    check(edonr_slice_offset(got) == edonr_slice_offset(got_second) &&
              edonr_slice_units(got) ==
                  edonr_slice_units(got_first) + edonr_slice_units(got_second),
          "budgets %u and %u: answered %" PRIx64 ", %" PRIx64 ", and in one %" PRIx64,
          (unsigned)b, (unsigned)c, got_first, got_second, got);
    check(memcmp(by_two, by_one, len) == 0, "budgets %u and %u: other vectors in one",
          (unsigned)b, (unsigned)c);
}

static void compare_pairs(uint32_t width)
{
    static struct sheet sheet;
    check_group("two slices and one, width %" PRIu32, width);
    for (unsigned i = 0; i < PAIRS; i++) {
        make_sheet(width, random_sheet_len(), &sheet);
        check_pair(width, &sheet);
    }
}

int main(int argc, char **argv)
{
    check_program("compare_slices", argc, argv);
    reference_init();
    for (unsigned i = 0; i < 2; i++) {
        compare_random(widths[i]);
        compare_lengths(widths[i]);
        compare_counts(widths[i]);
        compare_most(widths[i]);
        compare_cut_commands(widths[i]);
        compare_places(widths[i]);
        compare_offsets(widths[i]);
        compare_budgets(widths[i]);
        compare_faults(widths[i]);
        compare_chains(widths[i]);
        compare_pairs(widths[i]);
    }
    compare_refusal_order();
    check_points();
    return check_finish();
}
