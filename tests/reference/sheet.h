/*
 * Runs of a sheet over lent vectors, slices of them, and its inverse sheet: what
 * edonr_run_forward, edonr_run_backward, edonr_run_slice and edonr_inverse_sheet do,
 * written independently. Before a run or a slice, reference_init comes first.
 */
#ifndef REFERENCE_SHEET_H
#define REFERENCE_SHEET_H

#include <stddef.h>
#include <stdint.h>

uint64_t reference_run_forward(uint32_t width, uint8_t *vectors, size_t vectors_len,
                               const uint8_t *sheet, size_t sheet_len);

uint64_t reference_run_backward(uint32_t width, uint8_t *vectors, size_t vectors_len,
                                const uint8_t *sheet, size_t sheet_len);

uint64_t reference_run_slice(uint32_t width, uint8_t *vectors, size_t vectors_len,
                             const uint8_t *sheet, size_t sheet_len, uint32_t offset,
                             uint16_t budget);

uint64_t reference_inverse_sheet(uint32_t width, const uint8_t *sheet, size_t sheet_len,
                                 uint8_t *out, size_t out_len);

/* The runs over four vectors, V0 to V3, lent as 4 * w bytes: document 02, Paper 8, holds runs
   over eight against these. */
uint64_t reference_former_forward(uint32_t width, uint8_t *vectors, size_t vectors_len,
                                  const uint8_t *sheet, size_t sheet_len);

uint64_t reference_former_backward(uint32_t width, uint8_t *vectors, size_t vectors_len,
                                   const uint8_t *sheet, size_t sheet_len);

#endif
