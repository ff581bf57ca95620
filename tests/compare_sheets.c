/*
 * Runs of sheets by the archive against the reference, bit for bit.
 */
#include <inttypes.h>
#include <stdbool.h>
#include <string.h>

#include "edonr.h"
#include "harness/check.h"
#include "harness/random.h"
#include "harness/run_call.h"
#include "harness/sheet_maker.h"
#include "reference/division.h"

enum {
    RANDOM_SHEETS = 20000,
    FULL_SHEETS = 50,
    MOST_COMMANDS = SHEET_MOST_BYTES / 2,
    MOST_OF_THREE = SHEET_MOST_BYTES / 3,
    LISTS = 3000,
    MOST_RUNS = 6
};

static const uint32_t widths[2] = {32, 64};

/* The sheet forward and backward, each from vectors of its own. */
static void check_both_directions(uint32_t width, const uint8_t *sheet, size_t sheet_len,
                                  size_t vectors_len)
{
    uint8_t vectors[RUN_CALL_VECTORS];
    for (enum direction d = FORWARD; d < DIRECTIONS; d++) {
        struct run run = {d, width, sheet, sheet_len};
        random_pattern(vectors, vectors_len);
        check_run_call(&run, vectors, vectors_len);
    }
}

static void check_sheet(uint32_t width, const uint8_t *sheet, size_t sheet_len)
{
    check_both_directions(width, sheet, sheet_len, EDONR_PLACES * width);
}

static void compare_random(uint32_t width)
{
    static struct sheet sheet;
    check_group("random sheets, width %" PRIu32, width);
    for (unsigned i = 0; i < RANDOM_SHEETS; i++) {
        make_sheet(width, random_sheet_len(), &sheet);
        if (i % 3 == 0)
            damage_sheet(&sheet);
        check_sheet(width, sheet.bytes, sheet.len);
    }
}

/* Sheets of the greatest length, and of one byte more. */
static void compare_full(uint32_t width)
{
    static struct sheet sheet;
    check_group("sheets of 4,096 and 4,097 bytes, width %" PRIu32, width);
    for (unsigned i = 0; i < FULL_SHEETS; i++) {
        make_sheet(width, SHEET_MOST_BYTES, &sheet);
        check_sheet(width, sheet.bytes, SHEET_MOST_BYTES);
        sheet.bytes[SHEET_MOST_BYTES] = (uint8_t)(i % 10);
        check_sheet(width, sheet.bytes, SHEET_MOST_BYTES + 1);
    }
}

/* So many commands in so many bytes, and now and then the same sheet with a damage, which
   can be at its very end. */
static void check_counted(uint32_t width, size_t count, size_t len)
{
    static struct sheet sheet;
    make_counted_sheet(width, count, len, &sheet);
    check_sheet(width, sheet.bytes, sheet.len);
    if (random_below(4) == 0) {
        damage_sheet(&sheet);
        check_sheet(width, sheet.bytes, sheet.len);
    }
}

/* Every number of commands, each at a random length that so many can have. */
static void compare_counts(uint32_t width)
{
    check_group("sheets of 0 to %d commands, width %" PRIu32, MOST_COMMANDS, width);
    for (size_t count = 0; count <= MOST_COMMANDS; count++)
        check_counted(width, count, random_counted_len(count));
}

/* The most commands: 2,048 flips, and 1,365 commands of three bytes. At random places,
   since flips in turn would leave every vector as it was. */
static void compare_most(uint32_t width)
{
    check_group("sheets of the most commands, width %" PRIu32, width);
    for (unsigned i = 0; i < FULL_SHEETS; i++) {
        check_counted(width, MOST_COMMANDS, 2 * MOST_COMMANDS);
        check_counted(width, MOST_OF_THREE, 3 * MOST_OF_THREE);
    }
}

/* Every length that commands can fill. */
static void compare_lengths(uint32_t width)
{
    static struct sheet sheet;
    check_group("sheets of 0 to %d bytes, width %" PRIu32, SHEET_MOST_BYTES, width);
    for (size_t len = 0; len <= SHEET_MOST_BYTES; len += len == 0 ? 2 : 1) {
        make_sheet(width, len, &sheet);
        check_sheet(width, sheet.bytes, sheet.len);
    }
}

static void compare_cut_commands(uint32_t width)
{
    check_group("one command, cut anywhere, width %" PRIu32, width);
    each_cut_command(width, check_sheet);
}

/* A refusal must not do the flip that stands in front. */
static void compare_places(uint32_t width)
{
    check_group("places, width %" PRIu32, width);
    each_pair_of_places(width, check_sheet);
}

/* Widths, lengths and sheets, sound and not, in every combination. */
static void compare_refusal_order(void)
{
    static const uint32_t some_widths[] = {32, 64, 0, 1, 31, 33, 63, 65, 128, 0xFFFFFFFF};
    static const size_t vector_lens[] = {0,
                                         1,
                                         32,
                                         64,
                                         VECTORS_32 / 2,
                                         VECTORS_32 - 1,
                                         VECTORS_32,
                                         VECTORS_32 + 1,
                                         VECTORS_64 - 1,
                                         VECTORS_64,
                                         VECTORS_64 + 1,
                                         2 * VECTORS_64,
                                         RUN_CALL_VECTORS};
    static const size_t sheet_lens[] = {0,  1,  2,  3,    4,    5,   6,
                                        34, 66, 67, 4096, 4097, 8192};
    static const uint8_t codes[] = {0, 1, 5, 6, 7, 8, 9};
    enum { N = 13 };
    static uint8_t sheet[RUN_CALL_SHEET];
    check_group("refusals in every combination");
    for (unsigned c = 0; c < sizeof codes; c++) {
        memset(sheet, codes[c], sizeof sheet);
        for (unsigned i = 0; i < 10 * N * N; i++)
            check_both_directions(some_widths[i / (N * N)], sheet, sheet_lens[i % N],
                                  vector_lens[i / N % N]);
    }
}

struct point {
    const char *what;
    uint32_t width;
    size_t vectors_len, sheet_len;
    uint8_t sheet[4];
    uint64_t answer;
};

#define OVER_32 ((uint64_t)1 << 32)
#define REFUSED(number, offset) (((uint64_t)(number) << 32) + (offset))

/* Answers as numbers, without the reference; bytes behind the four given are 0. */
static const struct point points[] = {
    {"an empty sheet", 32, VECTORS_32, 0, {0}, 0},
    {"an empty sheet, wide", 64, VECTORS_64, 0, {0}, 0},
    {"lmul", 32, VECTORS_32, 3, {1, 0, 1}, 1},
    {"rmul", 32, VECTORS_32, 3, {2, 0, 1}, 1},
    {"ldiv", 32, VECTORS_32, 3, {3, 0, 1}, 1},
    {"rdiv", 32, VECTORS_32, 3, {4, 0, 1}, 1},
    {"swap", 32, VECTORS_32, 3, {5, 0, 1}, 0},
    {"flip", 32, VECTORS_32, 2, {6, 0}, 0},
    {"kmul", 32, VECTORS_32, 34, {7, 0}, 1},
    {"kdiv", 32, VECTORS_32, 34, {8, 0}, 1},
    {"lmul, wide", 64, VECTORS_64, 3, {1, 0, 1}, 1},
    {"rmul, wide", 64, VECTORS_64, 3, {2, 0, 1}, 1},
    {"ldiv, wide", 64, VECTORS_64, 3, {3, 0, 1}, 1},
    {"rdiv, wide", 64, VECTORS_64, 3, {4, 0, 1}, 1},
    {"swap, wide", 64, VECTORS_64, 3, {5, 0, 1}, 0},
    {"flip, wide", 64, VECTORS_64, 2, {6, 0}, 0},
    {"kmul, wide", 64, VECTORS_64, 66, {7, 0}, 1},
    {"kdiv, wide", 64, VECTORS_64, 66, {8, 0}, 1},
    {"two flips", 32, VECTORS_32, 4, {6, 0, 6, EDONR_PLACES - 1}, 0},
    {"d = s", 32, VECTORS_32, 3, {5, 1, 1}, REFUSED(11, 0)},
    {"d = s = 4", 32, VECTORS_32, 3, {1, 4, 4}, REFUSED(11, 0)},
    {"d = s = 4, wide", 64, VECTORS_64, 3, {1, 4, 4}, REFUSED(11, 0)},
    {"place 4", 32, VECTORS_32, 2, {6, 4}, 0},
    {"place 4, wide", 64, VECTORS_64, 2, {6, 4}, 0},
    {"places 7 and 4", 32, VECTORS_32, 3, {2, 7, 4}, 1},
    {"place 8", 32, VECTORS_32, 2, {6, 8}, REFUSED(10, 0)},
    {"place 8, wide", 64, VECTORS_64, 2, {6, 8}, REFUSED(10, 0)},
    {"d = s = 8", 32, VECTORS_32, 3, {1, 8, 8}, REFUSED(10, 0)},
    {"d = s = 8, wide", 64, VECTORS_64, 3, {1, 8, 8}, REFUSED(10, 0)},
    {"s = 8", 32, VECTORS_32, 3, {1, 7, 8}, REFUSED(10, 0)},
    {"place 8 after a flip", 64, VECTORS_64, 4, {6, 7, 6, 8}, REFUSED(10, 2)},
    {"place 4, cut", 32, VECTORS_32, 2, {1, 4}, REFUSED(9, 0)},
    {"place 8, cut", 32, VECTORS_32, 2, {1, 8}, REFUSED(9, 0)},
    {"command byte after a flip", 32, VECTORS_32, 3, {6, 0, 9}, REFUSED(8, 2)},
    {"command byte 0", 64, VECTORS_64, 1, {0}, REFUSED(8, 0)},
    {"K of 31 bytes", 32, VECTORS_32, 33, {7, 0}, REFUSED(9, 0)},
    {"K of 63 bytes", 64, VECTORS_64, 65, {8, 0}, REFUSED(9, 0)},
    {"a cut K after a flip", 64, VECTORS_64, 67, {6, 1, 7, 0}, REFUSED(9, 2)},
    {"4,097 bytes, faulty at 0", 32, VECTORS_32, 4097, {9}, REFUSED(7, 0)},
    {"4,097 bytes", 64, VECTORS_64, 4097, {6}, REFUSED(7, 0)},
    {"lengths and sheet", 32, VECTORS_64, 4097, {9}, REFUSED(6, 0)},
    {"four vectors", 32, 4 * 32, 2, {6, 0}, REFUSED(6, 0)},
    {"four vectors, wide", 64, 4 * 64, 2, {6, 0}, REFUSED(6, 0)},
    {"the other width's length", 64, VECTORS_32, 0, {0}, REFUSED(6, 0)},
    {"a length of 2^32 more", 32, OVER_32 + VECTORS_32, 2, {6, 0}, REFUSED(6, 0)},
    {"a sheet of 2^32 bytes more", 32, VECTORS_32, OVER_32 + 2, {6, 0}, REFUSED(7, 0)},
    {"a sheet of 2^32 bytes more, wide", 64, VECTORS_64, OVER_32, {0}, REFUSED(7, 0)},
    {"width, lengths and sheet", 33, 1, 4097, {9}, REFUSED(5, 0)},
};

static void check_points(void)
{
    static uint8_t sheet[RUN_CALL_SHEET];
    uint8_t vectors[VECTORS_64];
    check_group("answers as numbers");
    for (unsigned n = 0; n < DIRECTIONS * sizeof points / sizeof points[0]; n++) {
        const struct point *p = &points[n / DIRECTIONS];
        struct run run = {(enum direction)(n % DIRECTIONS), p->width, sheet, p->sheet_len};
        memset(sheet, 0, sizeof sheet);
        memcpy(sheet, p->sheet, sizeof p->sheet);
        random_fill(vectors, sizeof vectors);
        uint64_t got = check_run_call(&run, vectors, p->vectors_len);
        check(got == p->answer, "%s: answered %" PRIx64, p->what, got);
    }
    check(EDONR_REFUSED_SHEET == 7 && EDONR_REFUSED_COMMAND == 8 &&
              EDONR_REFUSED_CUT_COMMAND == 9 && EDONR_REFUSED_PLACE == 10 &&
              EDONR_REFUSED_SAME_PLACE == 11,
          "the header's numbers");
}

/* V0 = 1, 2, .., 8, or from 8 down to 1, and the other vectors 0, at width 32. */
static void counting_vectors(uint8_t vectors[VECTORS_32], bool down)
{
    memset(vectors, 0, VECTORS_32);
    for (unsigned i = 0; i < 8; i++)
        vectors[4 * i] = (uint8_t)(down ? 8 - i : i + 1);
}

/* The points of documents 01 and 02 that flip, without the reference. */
static void check_flips(void)
{
    static const struct run flip = {FORWARD, 32, (const uint8_t *)"\6\0", 2};
    static const struct run faulty = {FORWARD, 32, (const uint8_t *)"\6\0\11", 3};
    uint8_t vectors[VECTORS_32], flipped[VECTORS_32], sheet[SHEET_MOST_BYTES];
    check_group("flips");
    counting_vectors(vectors, false);
    counting_vectors(flipped, true);
    check(check_run_call(&flip, vectors, VECTORS_32) == 0 &&
              memcmp(vectors, flipped, VECTORS_32) == 0,
          "a flip of 1, 2, .., 8");
    check(check_run_call(&faulty, vectors, VECTORS_32) == REFUSED(8, 2) &&
              memcmp(vectors, flipped, VECTORS_32) == 0,
          "a refused sheet leaves V0 unflipped");
    memset(sheet, 6, sizeof sheet);
    for (unsigned i = 1; i < sizeof sheet; i += 2)
        sheet[i] = 0;
    struct run many = {FORWARD, 32, sheet, sizeof sheet};
    check(check_run_call(&many, vectors, VECTORS_32) == 0 &&
              memcmp(vectors, flipped, VECTORS_32) == 0,
          "2,048 flips");
    many.sheet_len -= 2;
    counting_vectors(flipped, false);
    check(check_run_call(&many, vectors, VECTORS_32) == 0 &&
              memcmp(vectors, flipped, VECTORS_32) == 0,
          "2,047 flips");
}

/* As many commands of one code as 4,096 bytes hold, over V0 and with V1 and K = 0. Returns
   the bytes that one takes. */
static size_t fill_with(uint32_t width, uint8_t code, uint8_t sheet[SHEET_MOST_BYTES])
{
    size_t len = command_len(width, code);
    memset(sheet, 0, SHEET_MOST_BYTES);
    for (size_t at = 0; at + len <= SHEET_MOST_BYTES; at += len) {
        sheet[at] = code;
        if (code <= 5)
            sheet[at + 2] = 1;
    }
    return len;
}

/* The sheet in both directions has to answer so many units, whatever the reference says. */
static void check_answers(uint32_t width, const uint8_t *sheet, size_t sheet_len,
                          uint64_t units)
{
    uint8_t vectors[VECTORS_64];
    random_fill(vectors, sizeof vectors);
    for (enum direction d = FORWARD; d < DIRECTIONS; d++) {
        struct run run = {d, width, sheet, sheet_len};
        uint64_t got = check_run_call(&run, vectors, EDONR_PLACES * (size_t)width);
        check(got == units, "commands %u in %zu bytes: answered %" PRIx64, sheet[0],
              sheet_len, got);
    }
}

/* Sheets of one kind of command, from the most to none. */
static void check_units(uint32_t width)
{
    static const unsigned units[] = {[1] = 1, 1, 1, 1, 0, 0, 1, 1};
    static uint8_t sheet[SHEET_MOST_BYTES];
    check_group("units of sheets of one kind, width %" PRIu32, width);
    for (unsigned code = 1; code <= 8; code++) {
        size_t len = fill_with(width, (uint8_t)code, sheet);
        for (size_t count = SHEET_MOST_BYTES / len + 1; count-- > 0; count -= count / 8)
            check_answers(width, sheet, count * len, count * units[code]);
    }
}

struct list {
    struct run runs[MOST_RUNS];
    struct sheet sheets[MOST_RUNS];
    unsigned count;
    size_t vectors_len;
};

/* Runs of mixed widths over lent bytes of one length, some of which must be refused: by
   a width, by the length at the run's width, or by a sheet that is damaged or was made
   for the other width. */
static void make_list(struct list *list)
{
    static const size_t lens[] = {VECTORS_32, VECTORS_64, VECTORS_32,
                                  VECTORS_64, VECTORS_32, VECTORS_64,
                                  0,          100,        VECTORS_64 + 1};
    list->count = 1 + (unsigned)random_below(MOST_RUNS);
    list->vectors_len = lens[random_below(sizeof lens / sizeof lens[0])];
    for (unsigned i = 0; i < list->count; i++) {
        struct sheet *sheet = &list->sheets[i];
        uint64_t kind = random_below(16);
        uint32_t width = list->vectors_len == VECTORS_64 ? 64 : 32;
        if (kind < 3)
            width = 96 - width;
        make_sheet(kind == 3 ? 96 - width : width, random_sheet_len(), sheet);
        if (kind >= 4 && kind < 7)
            damage_sheet(sheet);
        list->runs[i] = (struct run){(enum direction)random_below(DIRECTIONS),
                                     kind == 7 ? 33 : width, sheet->bytes, sheet->len};
    }
}

/* Out, then home with directions exchanged and the last run first. */
static void check_list(struct list *list)
{
    uint8_t start[RUN_CALL_VECTORS], vectors[RUN_CALL_VECTORS];
    uint64_t answers[MOST_RUNS];
    random_pattern(start, list->vectors_len);
    memcpy(vectors, start, list->vectors_len);
    for (unsigned i = 0; i < list->count; i++)
        answers[i] = check_run_call(&list->runs[i], vectors, list->vectors_len);
    for (unsigned i = list->count; i > 0; i--) {
        struct run home = list->runs[i - 1];
        home.direction = opposite(home.direction);
        uint64_t answer = check_run_call(&home, vectors, list->vectors_len);
        check(answer == answers[i - 1], "run %u answered %" PRIx64 " and then %" PRIx64,
              i - 1, answers[i - 1], answer);
    }
    check(memcmp(vectors, start, list->vectors_len) == 0, "the start is not found again");
}

static void compare_lists(void)
{
    static struct list list;
    check_group("lists of runs, out and home");
    for (unsigned i = 0; i < LISTS; i++) {
        make_list(&list);
        check_list(&list);
    }
}

int main(int argc, char **argv)
{
    check_program("compare_sheets", argc, argv);
    reference_init();
    for (unsigned i = 0; i < 2; i++) {
        compare_random(widths[i]);
        compare_counts(widths[i]);
        compare_most(widths[i]);
        compare_lengths(widths[i]);
        compare_full(widths[i]);
        compare_cut_commands(widths[i]);
        compare_places(widths[i]);
        check_units(widths[i]);
    }
    compare_refusal_order();
    check_points();
    check_flips();
    compare_lists();
    return check_finish();
}
