/*
 * One call for an inverse sheet, made to the archive and to the reference.
 */
#ifndef HARNESS_INVERSE_SHEET_CALL_H
#define HARNESS_INVERSE_SHEET_CALL_H

#include <stddef.h>
#include <stdint.h>

/* The longest sheet and the longest output that are lent, in bytes. What is longer is only
   claimed, for a call that is refused. */
enum { INVERSE_SHEET_CALL_CAPACITY = 8192 };

/* Counts one comparison: it passes if both give the same answer, the output holds the same
   bytes afterwards, sheet and guards stand, and so does all of the output that the answer
   does not claim. After a success inverse holds what the archive wrote, if it is not null.
   Returns the archive's answer. */
uint64_t check_inverse_sheet_call(uint32_t width, const uint8_t *sheet, size_t sheet_len,
                                  size_t out_len, uint8_t *inverse);

#endif
