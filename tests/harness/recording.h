/*
 * Recorded runs: all vectors as they stand after each command of a sheet, and damages of
 * such records.
 */
#ifndef HARNESS_RECORDING_H
#define HARNESS_RECORDING_H

#include <stddef.h>
#include <stdint.h>

#include "sheet_maker.h"

/* Writes the record of one command of a sheet, by its number from 0, over vectors that
   stood before it. It is made by the reference, of that command alone. */
void record_command(uint32_t width, const struct sheet *sheet, size_t number,
                    const uint8_t *before, uint8_t *record);

/* The records of the first count commands, one behind the other, of a run that starts from
   these vectors. */
void record_run(uint32_t width, const uint8_t *vectors, const struct sheet *sheet,
                size_t count, uint8_t *records);

/* One random damage of count records; some damages leave them all as they were. */
void damage_records(uint32_t width, uint8_t *records, size_t count);

#endif
