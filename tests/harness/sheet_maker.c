#include "sheet_maker.h"

#include <stdbool.h>

#include "edonr.h"
#include "random.h"

enum { LAST_OF_TWO_PLACES = 5, FLIP = 6, LAST_CODE = 8 };

size_t command_len(uint32_t width, unsigned code)
{
    if (code <= LAST_OF_TWO_PLACES)
        return 3;
    return code == FLIP ? 2 : 2 + (size_t)width;
}

size_t random_sheet_len(void)
{
    uint64_t most = random_below(20) == 0 ? SHEET_MOST_BYTES : 200;
    size_t len = (size_t)random_below(most + 1);
    return len == 1 ? 0 : len;
}

size_t random_counted_len(size_t count)
{
    size_t least = 2 * count, most = 3 * count;
    if (most > SHEET_MOST_BYTES)
        most = SHEET_MOST_BYTES;
    return least + (size_t)random_below(most - least + 1);
}

/* A code whose command leaves room that other commands can fill: anything but one byte. */
static unsigned fitting_code(uint32_t width, size_t room)
{
    for (;;) {
        unsigned code = 1 + (unsigned)random_below(LAST_CODE);
        size_t len = command_len(width, code);
        if (len <= room && room - len != 1)
            return code;
    }
}

/* A command of this code with random places and K. */
static void add_command(uint32_t width, unsigned code, struct sheet *sheet)
{
    uint8_t *command = sheet->bytes + sheet->len;
    sheet->offsets[sheet->count++] = sheet->len;
    sheet->len += command_len(width, code);
    command[0] = (uint8_t)code;
    command[1] = (uint8_t)random_below(EDONR_PLACES);
    if (code <= LAST_OF_TWO_PLACES)
        command[2] =
            (uint8_t)((command[1] + 1 + random_below(EDONR_PLACES - 1)) % EDONR_PLACES);
    if (code > FLIP)
        random_pattern(command + 2, width);
}

void make_sheet(uint32_t width, size_t len, struct sheet *sheet)
{
    sheet->len = sheet->count = 0;
    while (sheet->len < len)
        add_command(width, fitting_code(width, len - sheet->len), sheet);
}

/* Whether so many commands can take exactly so many bytes: with some that have a K, the
   others take two or three bytes each. */
static bool can_fill(uint32_t width, size_t count, size_t len)
{
    for (size_t keyed = 0; keyed <= count && 2 * count + keyed * width <= len; keyed++)
        if (len <= 3 * count + keyed * (width - 1))
            return true;
    return false;
}

void make_counted_sheet(uint32_t width, size_t count, size_t len, struct sheet *sheet)
{
    sheet->len = sheet->count = 0;
    while (sheet->count < count) {
        unsigned code = 1 + (unsigned)random_below(LAST_CODE);
        size_t left = count - sheet->count - 1;
        size_t end = sheet->len + command_len(width, code);
        if (end <= len && can_fill(width, left, len - end))
            add_command(width, code, sheet);
    }
}

static uint8_t *random_command(struct sheet *sheet)
{
    return sheet->bytes + sheet->offsets[random_below(sheet->count)];
}

static void append_bytes(struct sheet *sheet)
{
    size_t more = 1 + (size_t)random_below(SHEET_MOST_APPENDED);
    random_fill(sheet->bytes + sheet->len, more);
    sheet->len += more;
}

static void change_byte(struct sheet *sheet)
{
    uint64_t at = random_below(sheet->len);
    sheet->bytes[at] = (uint8_t)random_word();
}

static void corrupt_place(uint8_t *command)
{
    unsigned which = command[0] <= LAST_OF_TWO_PLACES ? 1 + (unsigned)random_below(2) : 1;
    command[which] = (uint8_t)(EDONR_PLACES + random_below(256 - EDONR_PLACES));
}

static void corrupt_code(uint8_t *command)
{
    uint64_t chosen = random_below(256 - LAST_CODE);
    command[0] = (uint8_t)(chosen == 0 ? 0 : LAST_CODE + chosen);
}

/* Gives a command of two places the same place twice, if a few tries find one. */
static void equal_places(struct sheet *sheet)
{
    for (unsigned i = 0; i < 8; i++) {
        uint8_t *command = random_command(sheet);
        if (command[0] <= LAST_OF_TWO_PLACES) {
            command[2] = command[1];
            return;
        }
    }
}

void damage_sheet(struct sheet *sheet)
{
    uint64_t kind = sheet->count == 0 ? 0 : random_below(6);
    switch (kind) {
    case 0: append_bytes(sheet); break;
    case 1: change_byte(sheet); break;
    case 2: sheet->len = (size_t)random_below(sheet->len); break;
    case 3: corrupt_place(random_command(sheet)); break;
    case 4: equal_places(sheet); break;
    default: corrupt_code(random_command(sheet));
    }
}

uint32_t random_width(uint32_t width)
{
    switch (random_below(12)) {
    case 0: return 96 - width;
    case 1: return width ^ 1u << random_below(32);
    default: return width;
    }
}

void each_cut_command(uint32_t width, sheet_visitor *visit)
{
    uint8_t command[2 + 64 + 1];
    for (unsigned code = 0; code < 256; code++) {
        random_fill(command, sizeof command);
        command[0] = (uint8_t)code;
        command[1] = (uint8_t)(code % EDONR_PLACES);
        command[2] = (uint8_t)((code + 1) % EDONR_PLACES);
        for (size_t len = 1; len <= 2 + width + 1; len++)
            visit(width, command, len);
    }
}

void each_pair_of_places(uint32_t width, sheet_visitor *visit)
{
    enum { N = EDONR_PLACES };
    static const uint8_t places[] = {0,     1,         3,     4,   N - 2, N - 1,   N,
                                     N + 1, 2 * N - 1, 2 * N, 127, 128,   256 - N, 255};
    enum { COUNT = sizeof places };
    for (unsigned n = 0; n < LAST_CODE * COUNT * COUNT; n++) {
        uint8_t code = (uint8_t)(1 + n / (COUNT * COUNT));
        uint8_t sheet[2 + 2 + 64] = {FLIP, 0, code, places[n / COUNT % COUNT],
                                     places[n % COUNT]};
        visit(width, sheet, 2 + command_len(width, code));
    }
}
