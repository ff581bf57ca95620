/*
 * Runs of a sheet over PLACES vectors, which is defined before this is included: by sheet.c
 * and replay.c as 8, and by former_sheet.c as 4. The number is a constant to the compiler,
 * as it is in the archive.
 */
#include <stdbool.h>
#include <stddef.h>
#include <stdint.h>

#include "answer.h"
#include "division.h"
#include "vector.h"

enum direction { FORWARD, BACKWARD };

enum code { LMUL = 1, RMUL, LDIV, RDIV, SWAP, FLIP, KMUL, KDIV };

/* The shortest command, a flip, takes two bytes. */
enum { MOST_BYTES = 4096, MOST_COMMANDS = MOST_BYTES / 2 };

/* Where each command of an accepted sheet begins, and behind them the sheet's length. */
struct offsets {
    size_t at[MOST_COMMANDS + 1];
    size_t count; /* of the commands */
};

static bool has_two_places(uint8_t code)
{
    return code <= SWAP;
}

static size_t command_len(uint32_t width, uint8_t code)
{
    if (has_two_places(code))
        return 3;
    return code == FLIP ? 2 : 2 + (size_t)width;
}

/* The length of the command at an offset, or its refusal. */
static uint64_t check_command(uint32_t width, const uint8_t *sheet, size_t sheet_len,
                              size_t at)
{
    uint8_t code = sheet[at];
    if (code < LMUL || code > KDIV)
        return refuse(BAD_COMMAND, at);
    if (sheet_len - at < command_len(width, code))
        return refuse(CUT_COMMAND, at);
    if (sheet[at + 1] >= PLACES || (has_two_places(code) && sheet[at + 2] >= PLACES))
        return refuse(BAD_PLACE, at);
    if (has_two_places(code) && sheet[at + 1] == sheet[at + 2])
        return refuse(SAME_PLACE, at);
    return command_len(width, code);
}

/* The first refusal of a sheet; or 0, with the offsets of its commands. */
static uint64_t check_sheet(uint32_t width, const uint8_t *sheet, size_t sheet_len,
                            struct offsets *offsets)
{
    if (sheet_len > MOST_BYTES)
        return refuse(SHEET_TOO_LONG, 0);
    offsets->count = 0;
    for (size_t at = 0; at < sheet_len;) {
        uint64_t len = check_command(width, sheet, sheet_len, at);
        if (is_refusal(len))
            return len;
        offsets->at[offsets->count++] = at;
        at += (size_t)len;
    }
    offsets->at[offsets->count] = sheet_len;
    return 0;
}

/* The same of a run. */
static uint64_t check_run(uint32_t width, size_t vectors_len, const uint8_t *sheet,
                          size_t sheet_len, struct offsets *offsets)
{
    if (width != 32 && width != 64)
        return refuse(BAD_WIDTH, 0);
    if (vectors_len != PLACES * width)
        return refuse(BAD_LENGTH, 0);
    return check_sheet(width, sheet, sheet_len, offsets);
}

/* The command that undoes one, at the same places and with the same K. */
static enum code undoing(enum code code)
{
    static const enum code undo[] = {
        [LMUL] = LDIV, [LDIV] = LMUL, [RMUL] = RDIV, [RDIV] = RMUL,
        [SWAP] = SWAP, [FLIP] = FLIP, [KMUL] = KDIV, [KDIV] = KMUL,
    };
    return undo[code];
}

#define WIDTH 32
#include "sheet_width.h"
#undef WIDTH

#define WIDTH 64
#include "sheet_width.h"
#undef WIDTH

/* Commands of an accepted sheet that begin at these offsets, count of them. */
static uint64_t run_commands(enum direction direction, uint32_t width, uint8_t *vectors,
                             const uint8_t *sheet, const size_t *at, size_t count)
{
    return width == 32 ? run_32(direction, vectors, sheet, at, count)
                       : run_64(direction, vectors, sheet, at, count);
}

/* In line, so that replay.c, which has no use for it, compiles without a warning. */
static inline uint64_t run(enum direction direction, uint32_t width, uint8_t *vectors,
                           size_t vectors_len, const uint8_t *sheet, size_t sheet_len)
{
    struct offsets offsets;
    uint64_t refusal = check_run(width, vectors_len, sheet, sheet_len, &offsets);
    if (is_refusal(refusal))
        return refusal;
    return run_commands(direction, width, vectors, sheet, offsets.at, offsets.count);
}
