/*
 * Inverse sheets by the archive against the reference, bit for bit, and runs of them
 * against runs of the sheets that they undo.
 */
#include <inttypes.h>
#include <string.h>

#include "edonr.h"
#include "harness/check.h"
#include "harness/inverse_sheet_call.h"
#include "harness/random.h"
#include "harness/run_call.h"
#include "harness/sheet_maker.h"
#include "reference/answer.h"
#include "reference/division.h"

enum {
    RANDOM_SHEETS = 20000,
    FULL_SHEETS = 50,
    OUTPUT_SHEETS = 100,
    JOINED_SHEETS = 3000,
    RUN_SHEETS = 3000,
    LISTS = 1000,
    MOST_RUNS = 6,
    MOST_BEHIND = 100, /* bytes of an output behind the inverse sheet */
    MOST_COMMANDS = SHEET_MOST_BYTES / 2
};

static const uint32_t widths[2] = {32, 64};

/* ---------------- sheets ---------------- */

/* Around the sheet's length: none, too short, exact or longer. */
static size_t random_out_len(size_t sheet_len)
{
    switch (random_below(5)) {
    case 0: return 0;
    case 1: return (size_t)random_below(sheet_len + 1);
    case 2: return sheet_len > 0 ? sheet_len - 1 : 0;
    case 3: return sheet_len;
    default: return sheet_len + (size_t)random_below(MOST_BEHIND);
    }
}

/* The sheet with room enough and with any output; if it is accepted, its inverse sheet as
   well, which has to give the sheet back. */
static void check_sheet(uint32_t width, const uint8_t *sheet, size_t sheet_len)
{
    uint8_t inverse[INVERSE_SHEET_CALL_CAPACITY], twice[INVERSE_SHEET_CALL_CAPACITY];
    size_t room = sheet_len + (size_t)random_below(MOST_BEHIND);
    uint64_t answer = check_inverse_sheet_call(width, sheet, sheet_len, room, inverse);
    check_inverse_sheet_call(width, sheet, sheet_len, random_out_len(sheet_len), NULL);
    if (is_refusal(answer))
        return;
    check_inverse_sheet_call(width, inverse, sheet_len, sheet_len, twice);
    check(memcmp(twice, sheet, sheet_len) == 0,
          "width %" PRIu32 ", sheet of %zu bytes: twice is another sheet", width,
          sheet_len);
}

static void compare_random(uint32_t width)
{
    static struct sheet sheet;
    check_group("random sheets, width %" PRIu32, width);
    for (unsigned i = 0; i < RANDOM_SHEETS; i++) {
        make_sheet(width, random_sheet_len(), &sheet);
        if (i % 3 == 0)
            damage_sheet(&sheet);
        check_sheet(random_width(width), sheet.bytes, sheet.len);
    }
}

/* Every length that a sheet can have, 1 among them, and one byte more. */
static void compare_lengths(uint32_t width)
{
    static struct sheet sheet;
    check_group("sheets of 0 to %d bytes, width %" PRIu32, SHEET_MOST_BYTES + 1, width);
    for (size_t len = 0; len <= SHEET_MOST_BYTES; len++) {
        make_sheet(width, len == 1 ? 2 : len, &sheet);
        check_sheet(width, sheet.bytes, len);
    }
    for (unsigned i = 0; i < FULL_SHEETS; i++) {
        make_sheet(width, SHEET_MOST_BYTES, &sheet);
        sheet.bytes[SHEET_MOST_BYTES] = (uint8_t)(i % 10);
        check_sheet(width, sheet.bytes, SHEET_MOST_BYTES + 1);
    }
}

/* Every number of commands, each at a random length that so many can have. */
static void compare_counts(uint32_t width)
{
    static struct sheet sheet;
    check_group("sheets of 0 to %d commands, width %" PRIu32, MOST_COMMANDS, width);
    for (size_t count = 0; count <= MOST_COMMANDS; count++) {
        make_counted_sheet(width, count, random_counted_len(count), &sheet);
        check_sheet(width, sheet.bytes, sheet.len);
    }
}

static void compare_cut_commands(uint32_t width)
{
    check_group("one command, cut anywhere, width %" PRIu32, width);
    each_cut_command(width, check_sheet);
}

static void compare_places(uint32_t width)
{
    check_group("places, width %" PRIu32, width);
    each_pair_of_places(width, check_sheet);
}

/* Every length of the output, from none to longer than the sheet. */
static void compare_outputs(uint32_t width)
{
    static struct sheet sheet;
    check_group("outputs of every length, width %" PRIu32, width);
    for (unsigned i = 0; i < OUTPUT_SHEETS; i++) {
        size_t len = i == 0 ? SHEET_MOST_BYTES : 2 + (size_t)random_below(150);
        make_sheet(width, len, &sheet);
        for (size_t out_len = 0; out_len <= sheet.len + MOST_BEHIND; out_len++)
            check_inverse_sheet_call(width, sheet.bytes, sheet.len, out_len, NULL);
    }
}

/* Of two sheets in one the second is undone first: what the archive writes for both is
   what it writes for each. */
static void compare_joined(uint32_t width)
{
    static struct sheet first, second;
    uint8_t joined[SHEET_MOST_BYTES], both[SHEET_MOST_BYTES], each[SHEET_MOST_BYTES];
    check_group("two sheets in one, width %" PRIu32, width);
    for (unsigned i = 0; i < JOINED_SHEETS; i++) {
        make_sheet(width, random_sheet_len() / 4 * 2, &first);
        make_sheet(width, random_sheet_len() / 4 * 2, &second);
        memcpy(joined, first.bytes, first.len);
        memcpy(joined + first.len, second.bytes, second.len);
        size_t len = first.len + second.len;
        check_inverse_sheet_call(width, second.bytes, second.len, second.len, each);
        check_inverse_sheet_call(width, first.bytes, first.len, first.len,
                                 each + second.len);
        check_inverse_sheet_call(width, joined, len, len, both);
        check(memcmp(both, each, len) == 0, "sheets of %zu and %zu bytes in one", first.len,
              second.len);
    }
}

/* ---------------- expected bytes, without the reference ---------------- */

static void check_bytes(uint32_t width, const uint8_t *sheet, size_t len,
                        const uint8_t *wanted)
{
    uint8_t inverse[SHEET_MOST_BYTES];
    uint64_t got = check_inverse_sheet_call(width, sheet, len, len + 1, inverse);
    check(got == len && memcmp(inverse, wanted, len) == 0,
          "width %" PRIu32 ", sheet of %zu bytes: another inverse sheet", width, len);
}

/* One command, with a K of bytes that all differ. */
static void check_command(uint32_t width, uint8_t code, uint8_t d, uint8_t s)
{
    static const uint8_t undoing[] = {[1] = 3, 4, 1, 2, 5, 6, 8, 7};
    uint8_t command[2 + 64], wanted[2 + 64];
    for (unsigned i = 0; i < sizeof command; i++)
        command[i] = (uint8_t)(17 * d + 3 * i);
    command[0] = code;
    command[1] = d;
    if (code <= 5)
        command[2] = s;
    memcpy(wanted, command, sizeof wanted);
    wanted[0] = undoing[code];
    check_bytes(width, command, command_len(width, code), wanted);
}

/* Each command alone, at all places. */
static void check_single_commands(uint32_t width)
{
    check_group("commands alone, width %" PRIu32, width);
    for (uint8_t code = 1; code <= 8; code++)
        for (uint8_t d = 0; d < EDONR_PLACES; d++)
            for (uint8_t s = 0; s < (code <= 5 ? EDONR_PLACES : 1); s++)
                if (code > 5 || d != s)
                    check_command(width, code, d, s);
}

/* One command of each kind, with a K that counts, and its inverse sheet by hand. */
static void check_all_commands(uint32_t width)
{
    static const uint8_t heads[2][8][3] = {
        {{1, 0, 1}, {2, 2, 3}, {3, 4, 5}, {4, 6, 7}, {5, 1, 0}, {6, 5}, {7, 3}, {8, 4}},
        {{7, 4}, {8, 3}, {6, 5}, {5, 1, 0}, {2, 6, 7}, {1, 4, 5}, {4, 2, 3}, {3, 0, 1}},
    };
    uint8_t sheets[2][8 * (2 + 64)];
    size_t lens[2] = {0, 0};
    check_group("all commands, width %" PRIu32, width);
    for (unsigned n = 0; n < 2 * 8; n++) {
        const uint8_t *head = heads[n / 8][n % 8];
        uint8_t *command = sheets[n / 8] + lens[n / 8];
        memcpy(command, head, 3);
        /* The K at place 3 counts from 0, that at place 4 from 100. */
        for (unsigned i = 0; head[0] > 6 && i < width; i++)
            command[2 + i] = (uint8_t)((head[1] == 3 ? 0 : 100) + i);
        lens[n / 8] += command_len(width, head[0]);
    }
    check_bytes(width, sheets[0], lens[0], sheets[1]);
    check_bytes(width, sheets[1], lens[1], sheets[0]);
}

/* The most commands: their places come out in the other order. */
static void check_flips(uint32_t width)
{
    uint8_t sheet[SHEET_MOST_BYTES], wanted[SHEET_MOST_BYTES];
    check_group("%d flips, width %" PRIu32, MOST_COMMANDS, width);
    for (unsigned i = 0; i < MOST_COMMANDS; i++) {
        sheet[2 * i] = wanted[2 * i] = 6;
        sheet[2 * i + 1] = (uint8_t)random_below(EDONR_PLACES);
        wanted[sizeof wanted - 1 - 2 * i] = sheet[2 * i + 1];
    }
    check_bytes(width, sheet, sizeof sheet, wanted);
    check_bytes(width, sheet, sizeof sheet - 2, wanted + 2);
}

/* ---------------- refusals ---------------- */

/* Widths, sheets and outputs, sound and not, in every combination. */
static void compare_refusal_order(void)
{
    static const uint32_t some_widths[] = {32, 64, 0,  1,   31,         33,
                                           63, 65, 96, 128, 0x80000020, 0xFFFFFFFF};
    static const size_t lens[] = {0,  1,  2,  3,  4,    5,    6,    34,
                                  35, 66, 67, 68, 4095, 4096, 4097, 8192};
    static const uint8_t codes[] = {0, 1, 5, 6, 7, 8, 9};
    enum { WIDTHS = sizeof some_widths / sizeof some_widths[0] };
    enum { N = sizeof lens / sizeof lens[0] };
    static uint8_t sheet[INVERSE_SHEET_CALL_CAPACITY];
    check_group("refusals in every combination");
    for (unsigned c = 0; c < sizeof codes; c++) {
        memset(sheet, codes[c], sizeof sheet);
        for (unsigned i = 0; i < WIDTHS * N * N; i++)
            check_inverse_sheet_call(some_widths[i / (N * N)], sheet, lens[i / N % N],
                                     lens[i % N], NULL);
    }
}

struct point {
    const char *what;
    uint32_t width;
    size_t sheet_len, out_len;
    uint8_t sheet[6];
    uint64_t answer;
};

#define OVER_32 ((uint64_t)1 << 32)
#define REFUSED(number, offset) (((uint64_t)(number) << 32) + (offset))

/* Answers as numbers, without the reference; bytes behind the six given are 0. */
static const struct point points[] = {
    {"an empty sheet and no output", 32, 0, 0, {0}, 0},
    {"an empty sheet, wide", 64, 0, 10, {0}, 0},
    {"a flip and just its output", 32, 2, 2, {6, 7}, 2},
    {"a flip and more output", 64, 2, 3, {6, 7}, 2},
    {"two commands", 32, 5, 5, {1, 0, 1, 6, 0}, 5},
    {"kmul", 32, 34, 34, {7, 0}, 34},
    {"kdiv, wide", 64, 66, 66, {8, 7}, 66},
    {"an output one byte short", 32, 3, 2, {5, 0, 1}, REFUSED(4, 0)},
    {"no output", 64, 2, 0, {6, 0}, REFUSED(4, 0)},
    {"an output one byte short of K", 64, 66, 65, {7, 0}, REFUSED(4, 0)},
    {"an output of the other width's K", 64, 66, 34, {7, 0}, REFUSED(4, 0)},
    {"an output for the second command", 32, 5, 2, {1, 0, 1, 6, 0}, REFUSED(4, 0)},
    {"command byte 0, no output", 32, 1, 0, {0}, REFUSED(8, 0)},
    {"command byte 9, no output", 64, 3, 0, {6, 0, 9}, REFUSED(8, 2)},
    {"cut, no output", 32, 2, 0, {1, 0}, REFUSED(9, 0)},
    {"place 8, cut, short output", 32, 4, 2, {6, 0, 1, 8}, REFUSED(9, 2)},
    {"a cut K, short output", 32, 33, 32, {7, 0}, REFUSED(9, 0)},
    {"a K of the other width", 64, 34, 34, {7, 0}, REFUSED(9, 0)},
    {"place 8, no output", 64, 2, 0, {6, 8}, REFUSED(10, 0)},
    {"d = s = 8, no output", 32, 3, 0, {1, 8, 8}, REFUSED(10, 0)},
    {"d = s, no output", 32, 3, 0, {5, 1, 1}, REFUSED(11, 0)},
    {"d = s after a command", 64, 6, 6, {2, 3, 4, 4, 7, 7}, REFUSED(11, 3)},
    {"two faults", 32, 5, 5, {5, 1, 1, 6, 8}, REFUSED(11, 0)},
    {"d = s and any output", 32, 3, SIZE_MAX, {5, 1, 1}, REFUSED(11, 0)},
    {"4,096 bytes, faulty at 2", 32, 4096, 4095, {6}, REFUSED(8, 2)},
    {"4,097 bytes", 32, 4097, 4097, {6}, REFUSED(7, 0)},
    {"4,097 bytes, faulty at 0, no output", 64, 4097, 0, {9}, REFUSED(7, 0)},
    {"a sheet of 2^32 bytes more", 32, OVER_32 + 2, 4096, {6, 0}, REFUSED(7, 0)},
    {"a sheet of 2^32 bytes, wide", 64, OVER_32, 0, {0}, REFUSED(7, 0)},
    {"a sheet of any length", 64, SIZE_MAX, SIZE_MAX, {0}, REFUSED(7, 0)},
    {"width", 33, 2, 2, {6, 0}, REFUSED(5, 0)},
    {"width 0, nothing lent", 0, 0, 0, {0}, REFUSED(5, 0)},
    {"width and no output", 16, 2, 0, {6, 0}, REFUSED(5, 0)},
    {"width and sheet", 96, 3, 3, {5, 1, 1}, REFUSED(5, 0)},
    {"width, lengths and sheet", 65, 4097, 0, {9}, REFUSED(5, 0)},
    {"a width with another bit", 0x80000020, 2, 2, {6, 0}, REFUSED(5, 0)},
};

static void check_points(void)
{
    static uint8_t sheet[INVERSE_SHEET_CALL_CAPACITY];
    check_group("answers as numbers");
    for (unsigned n = 0; n < sizeof points / sizeof points[0]; n++) {
        const struct point *p = &points[n];
        memset(sheet, 0, sizeof sheet);
        memcpy(sheet, p->sheet, sizeof p->sheet);
        uint64_t got =
            check_inverse_sheet_call(p->width, sheet, p->sheet_len, p->out_len, NULL);
        check(got == p->answer, "%s: answered %" PRIx64, p->what, got);
    }
}

/* ---------------- runs ---------------- */

/* A sheet for a width and its inverse sheet, as long as the sheet. */
struct pair {
    uint32_t width;
    struct sheet sheet;
    uint8_t inverse[SHEET_MOST_BYTES];
};

static void make_pair(uint32_t width, struct pair *pair)
{
    pair->width = width;
    make_sheet(width, random_sheet_len(), &pair->sheet);
    check_inverse_sheet_call(width, pair->sheet.bytes, pair->sheet.len, pair->sheet.len,
                             pair->inverse);
}

static uint64_t run_sheet(enum direction direction, const struct pair *pair,
                          uint8_t *vectors, size_t vectors_len)
{
    struct run run = {direction, pair->width, pair->sheet.bytes, pair->sheet.len};
    return check_run_call(&run, vectors, vectors_len);
}

static uint64_t run_inverse(enum direction direction, const struct pair *pair,
                            uint8_t *vectors, size_t vectors_len)
{
    struct run run = {direction, pair->width, pair->inverse, pair->sheet.len};
    return check_run_call(&run, vectors, vectors_len);
}

/* The sheet in one direction and the inverse sheet in the other do the same from the same
   vectors, which may be of a length that both refuse. */
static void check_same_runs(const struct pair *pair, size_t vectors_len)
{
    uint8_t by_sheet[RUN_CALL_VECTORS], by_inverse[RUN_CALL_VECTORS];
    for (enum direction d = FORWARD; d < DIRECTIONS; d++) {
        random_pattern(by_sheet, vectors_len);
        memcpy(by_inverse, by_sheet, vectors_len);
        uint64_t of_sheet = run_sheet(d, pair, by_sheet, vectors_len);
        uint64_t of_inverse = run_inverse(opposite(d), pair, by_inverse, vectors_len);
        check(of_sheet == of_inverse, "%s answers %" PRIx64 ", the inverse sheet %" PRIx64,
              direction_name(d), of_sheet, of_inverse);
        check(memcmp(by_sheet, by_inverse, vectors_len) == 0,
              "%s, the inverse sheet leaves other vectors", direction_name(d));
    }
}

static void compare_runs(uint32_t width)
{
    static const size_t other_lens[] = {0, 4 * 32, VECTORS_32, VECTORS_64, VECTORS_64 + 1};
    enum { N = sizeof other_lens / sizeof other_lens[0] };
    static struct pair pair;
    check_group("runs of both sheets, width %" PRIu32, width);
    for (unsigned i = 0; i < RUN_SHEETS; i++) {
        make_pair(width, &pair);
        check_same_runs(&pair, EDONR_PLACES * (size_t)width);
        if (i % 8 == 0)
            check_same_runs(&pair, other_lens[i / 8 % N]);
    }
}

/* Out by some sheets and home by their inverse sheets, with runs in one direction alone. */
static void check_list(enum direction direction, const struct pair *pairs, unsigned count,
                       size_t vectors_len)
{
    uint8_t start[RUN_CALL_VECTORS], vectors[RUN_CALL_VECTORS];
    uint64_t answers[MOST_RUNS];
    random_pattern(start, vectors_len);
    memcpy(vectors, start, vectors_len);
    for (unsigned i = 0; i < count; i++)
        answers[i] = run_sheet(direction, &pairs[i], vectors, vectors_len);
    for (unsigned i = count; i > 0; i--) {
        uint64_t home = run_inverse(direction, &pairs[i - 1], vectors, vectors_len);
        check(home == answers[i - 1], "run %u answered %" PRIx64 " and then %" PRIx64,
              i - 1, answers[i - 1], home);
    }
    check(memcmp(vectors, start, vectors_len) == 0,
          "%s runs: the start is not found again", direction_name(direction));
}

/* Mostly vectors for the list's width, and sheets for it: a run at the other width is
   refused, out and home. */
static void compare_lists(uint32_t width)
{
    static struct pair pairs[MOST_RUNS];
    check_group("runs one way, out and home, width %" PRIu32, width);
    for (unsigned i = 0; i < LISTS; i++) {
        unsigned count = 1 + (unsigned)random_below(MOST_RUNS);
        size_t len = random_below(16) == 0 ? 100 : EDONR_PLACES * (size_t)width;
        for (unsigned n = 0; n < count; n++)
            make_pair(random_below(6) == 0 ? 96 - width : width, &pairs[n]);
        for (enum direction d = FORWARD; d < DIRECTIONS; d++)
            check_list(d, pairs, count, len);
    }
}

int main(int argc, char **argv)
{
    check_program("compare_inverse", argc, argv);
    reference_init();
    for (unsigned i = 0; i < 2; i++) {
        compare_random(widths[i]);
        compare_lengths(widths[i]);
        compare_counts(widths[i]);
        compare_cut_commands(widths[i]);
        compare_places(widths[i]);
        compare_outputs(widths[i]);
        check_single_commands(widths[i]);
        check_all_commands(widths[i]);
        check_flips(widths[i]);
        compare_joined(widths[i]);
        compare_runs(widths[i]);
        compare_lists(widths[i]);
    }
    compare_refusal_order();
    check_points();
    return check_finish();
}
