#include "recording.h"

#include <string.h>

#include "../reference/sheet.h"
#include "edonr.h"
#include "random.h"

static size_t record_len(uint32_t width)
{
    return EDONR_PLACES * (size_t)width;
}

void record_command(uint32_t width, const struct sheet *sheet, size_t number,
                    const uint8_t *before, uint8_t *record)
{
    const uint8_t *command = sheet->bytes + sheet->offsets[number];
    memcpy(record, before, record_len(width));
    reference_run_forward(width, record, record_len(width), command,
                          command_len(width, command[0]));
}

void record_run(uint32_t width, const uint8_t *vectors, const struct sheet *sheet,
                size_t count, uint8_t *records)
{
    const uint8_t *before = vectors;
    for (size_t number = 0; number < count; number++) {
        record_command(width, sheet, number, before, records);
        before = records;
        records += record_len(width);
    }
}

static void flip_bit(uint8_t *bytes, size_t len)
{
    uint64_t bit = random_below(8 * (uint64_t)len);
    bytes[bit / 8] ^= (uint8_t)(1u << bit % 8);
}

void damage_records(uint32_t width, uint8_t *records, size_t count)
{
    size_t one = record_len(width);
    if (count == 0)
        return;
    uint8_t *record = records + (size_t)random_below(count) * one;
    switch (random_below(6)) {
    case 0: flip_bit(record, one); break;
    case 1:
        flip_bit(record, one);
        flip_bit(record, one);
        break;
    case 2:
        flip_bit(record, one);
        flip_bit(records, count * one);
        break;
    case 3: random_pattern(record, one); break;
    case 4: memmove(record, records + (size_t)random_below(count) * one, one); break;
    default: random_fill(records, count * one);
    }
}
