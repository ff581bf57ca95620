/*
 * four_places [file]: sheets that are accepted among four places mean the same among eight:
 * they do the same to V0 to V3 and leave V4 to V7. Held against the reference with four
 * places, and against the runs among four places in the file, whose head gives its form.
 */
#include <inttypes.h>
#include <stdio.h>
#include <stdlib.h>
#include <string.h>

#include "harness/check.h"
#include "harness/random.h"
#include "harness/run_call.h"
#include "harness/sheet_maker.h"
#include "harness/vector_file.h"
#include "reference/answer.h"
#include "reference/division.h"
#include "reference/sheet.h"

enum {
    CASES = 2,
    FEW_PLACES = 4,
    FEW_64 = FEW_PLACES * 64, /* what four vectors take at most, in bytes */
    MOST_CASE_BYTES = 256,
    FILLINGS = 100, /* of V4 to V7, for each case and direction */
    RANDOM_SHEETS = 5000
};

static run_function *const former_runs[DIRECTIONS] = {reference_former_forward,
                                                      reference_former_backward};

struct bytes {
    uint8_t at[MOST_CASE_BYTES];
    size_t len;
};

struct recorded_run {
    uint32_t width;
    struct bytes vectors, sheet, after;
    uint64_t units;
};

struct cases {
    struct recorded_run at[CASES];
    size_t count;
};

static void add_bytes(struct bytes *bytes, const char *text)
{
    for (; *text != '\0'; text += 2) {
        if (bytes->len == MOST_CASE_BYTES)
            vector_file_stop("too many bytes");
        bytes->at[bytes->len++] =
            (uint8_t)(vector_file_digit(text[0]) << 4 | vector_file_digit(text[1]));
    }
}

static void add_line(void *context, const char *keyword, const char *value)
{
    struct cases *cases = context;
    if (strcmp(keyword, "width") == 0) {
        if (cases->count == CASES)
            vector_file_stop("too many cases");
        cases->at[cases->count++].width = (uint32_t)strtoul(value, NULL, 10);
        return;
    }
    if (cases->count == 0)
        vector_file_stop("a case does not begin with its width");
    struct recorded_run *run = &cases->at[cases->count - 1];
    if (strcmp(keyword, "vectors") == 0)
        add_bytes(&run->vectors, value);
    else if (strcmp(keyword, "sheet") == 0)
        add_bytes(&run->sheet, value);
    else if (strcmp(keyword, "after") == 0)
        add_bytes(&run->after, value);
    else if (strcmp(keyword, "units") == 0)
        run->units = strtoull(value, NULL, 10);
    else
        vector_file_stop("an unknown keyword");
}

/* Ends the program at a case that is not whole. */
static void look_at_case(const struct recorded_run *run)
{
    size_t len = FEW_PLACES * (size_t)run->width;
    if (run->width != 32 && run->width != 64)
        vector_file_stop("a width is neither 32 nor 64");
    if (run->vectors.len != len || run->after.len != len)
        vector_file_stop("a case has not four vectors before and after");
}

/* A run over eight vectors, of which the first four are given, has to answer so and leave
   the first four as wanted and the others, which are random, as they were. */
static void check_run_over_eight(const struct run *run, const uint8_t *first,
                                 uint64_t answer, const uint8_t *wanted)
{
    uint8_t vectors[2 * FEW_64], others[FEW_64];
    size_t half = FEW_PLACES * (size_t)run->width;
    random_pattern(others, half);
    memcpy(vectors, first, half);
    memcpy(vectors + half, others, half);
    uint64_t got = check_run_call(run, vectors, 2 * half);
    check(got == answer, "answered %" PRIx64 " and not %" PRIx64, got, answer);
    check(memcmp(vectors, wanted, half) == 0, "width %" PRIu32 ": V0 to V3", run->width);
    check(memcmp(vectors + half, others, half) == 0, "width %" PRIu32 ": V4 to V7",
          run->width);
}

static void check_case(const struct recorded_run *recorded)
{
    struct run run = {FORWARD, recorded->width, recorded->sheet.at, recorded->sheet.len};
    look_at_case(recorded);
    for (unsigned i = 0; i < FILLINGS; i++) {
        run.direction = FORWARD;
        check_run_over_eight(&run, recorded->vectors.at, recorded->units,
                             recorded->after.at);
        run.direction = BACKWARD;
        check_run_over_eight(&run, recorded->after.at, recorded->units,
                             recorded->vectors.at);
    }
}

/* Brings the places of most commands of a sound sheet among the first four. */
static void lower_places(struct sheet *sheet)
{
    for (size_t i = 0; i < sheet->count; i++) {
        uint8_t *command = sheet->bytes + sheet->offsets[i];
        if (random_below(1000) == 0)
            continue;
        command[1] %= FEW_PLACES;
        if (command[0] <= 5)
            command[2] %= FEW_PLACES;
        if (command[0] <= 5 && command[1] == command[2])
            command[2] = (uint8_t)((command[1] + 1) % FEW_PLACES);
    }
}

/* Checks a run of a sheet that the reference with four places accepts; returns whether it
   does. */
static bool check_former(enum direction direction, uint32_t width,
                         const struct sheet *sheet)
{
    uint8_t first[FEW_64], after[FEW_64];
    size_t half = FEW_PLACES * (size_t)width;
    struct run run = {direction, width, sheet->bytes, sheet->len};
    random_pattern(first, half);
    memcpy(after, first, half);
    uint64_t answer = former_runs[direction](width, after, half, sheet->bytes, sheet->len);
    if (is_refusal(answer))
        return false;
    check_run_over_eight(&run, first, answer, after);
    return true;
}

static void compare_random(uint32_t width)
{
    static struct sheet sheet;
    unsigned accepted = 0;
    check_group("random sheets, width %" PRIu32, width);
    for (unsigned i = 0; i < RANDOM_SHEETS; i++) {
        size_t len = (size_t)random_below(i % 20 == 0 ? SHEET_MOST_BYTES + 1 : 200);
        make_sheet(width, len == 1 ? 0 : len, &sheet);
        lower_places(&sheet);
        if (i % 8 == 0)
            damage_sheet(&sheet);
        for (enum direction d = FORWARD; d < DIRECTIONS; d++)
            accepted += check_former(d, width, &sheet);
    }
    printf("  %u of %u runs were accepted with four places\n", accepted,
           DIRECTIONS * RANDOM_SHEETS);
    check(accepted > RANDOM_SHEETS && accepted < DIRECTIONS * RANDOM_SHEETS,
          "%u runs accepted", accepted);
}

int main(int argc, char **argv)
{
    static struct cases cases;
    int argument = check_program("four_places", argc, argv);
    const char *path = argument < argc ? argv[argument] : "tests/vectors/four_places.txt";
    reference_init();
    vector_file_read(path, add_line, &cases);
    check_group("runs among four places, as recorded");
    check(cases.count == CASES, "%zu cases", cases.count);
    for (size_t i = 0; i < cases.count; i++)
        check_case(&cases.at[i]);
    compare_random(32);
    compare_random(64);
    return check_finish();
}
