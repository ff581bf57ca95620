#include "sheet.h"

/* The reference takes nothing from the kit's header, so the number stands here too. */
#define PLACES 8
#include "sheet_places.h"

uint64_t reference_run_forward(uint32_t width, uint8_t *vectors, size_t vectors_len,
                               const uint8_t *sheet, size_t sheet_len)
{
    return run(FORWARD, width, vectors, vectors_len, sheet, sheet_len);
}

uint64_t reference_run_backward(uint32_t width, uint8_t *vectors, size_t vectors_len,
                                const uint8_t *sheet, size_t sheet_len)
{
    return run(BACKWARD, width, vectors, vectors_len, sheet, sheet_len);
}

/* The number of the command that begins at an offset. The sheet's length has the number of
   the commands, and an offset where none begins one more than that. */
static size_t number_at(const struct offsets *offsets, size_t offset)
{
    size_t number = 0;
    while (number <= offsets->count && offsets->at[number] != offset)
        number++;
    return number;
}

/* The commands by their numbers: from that of the start on, as many as the budget and the
   sheet have. */
uint64_t reference_run_slice(uint32_t width, uint8_t *vectors, size_t vectors_len,
                             const uint8_t *sheet, size_t sheet_len, uint32_t offset,
                             uint16_t budget)
{
    struct offsets offsets;
    uint64_t refusal = check_run(width, vectors_len, sheet, sheet_len, &offsets);
    if (is_refusal(refusal))
        return refusal;
    size_t first = number_at(&offsets, offset);
    if (first > offsets.count)
        return refuse(BAD_START, 0);
    size_t left = offsets.count - first, done = budget < left ? budget : left;
    uint64_t units = run_commands(FORWARD, width, vectors, sheet, offsets.at + first, done);
    return (units << 16) + offsets.at[first + done];
}

/* The command that undoes one, which takes as many bytes. */
static void write_undoing(uint32_t width, const uint8_t *command, uint8_t *out)
{
    enum code code = (enum code)command[0];
    out[0] = (uint8_t)undoing(code);
    out[1] = command[1];
    if (has_two_places(command[0]))
        out[2] = command[2];
    else if (code != FLIP)
        memcpy(out + 2, command + 2, width);
}

/* The undoing commands one behind the other, last one first. */
uint64_t reference_inverse_sheet(uint32_t width, const uint8_t *sheet, size_t sheet_len,
                                 uint8_t *out, size_t out_len)
{
    struct offsets offsets;
    if (width != 32 && width != 64)
        return refuse(BAD_WIDTH, 0);
    uint64_t refusal = check_sheet(width, sheet, sheet_len, &offsets);
    if (is_refusal(refusal))
        return refusal;
    if (out_len < sheet_len)
        return refuse(OUTPUT_TOO_SHORT, 0);
    uint8_t *next = out;
    for (size_t i = offsets.count; i > 0; i--) {
        const uint8_t *command = sheet + offsets.at[i - 1];
        write_undoing(width, command, next);
        next += command_len(width, command[0]);
    }
    return sheet_len;
}
