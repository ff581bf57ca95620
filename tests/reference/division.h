/*
 * Both divisions on values, at both widths.
 *
 * They rest on inverted squares that elimination finds from the lists in rows.h, and on
 * no formula for those inverses.
 */
#ifndef REFERENCE_DIVISION_H
#define REFERENCE_DIVISION_H

#include <stdint.h>

/* Inverts the squares. To be called once, before any division. */
void reference_init(void);

/* The x with a*x = b. x may be a or b. */
void reference_divide_left_32(const uint32_t a[8], const uint32_t b[8], uint32_t x[8]);
void reference_divide_left_64(const uint64_t a[8], const uint64_t b[8], uint64_t x[8]);

/* The y with y*a = b. y may be a or b. */
void reference_divide_right_32(const uint32_t b[8], const uint32_t a[8], uint32_t y[8]);
void reference_divide_right_64(const uint64_t b[8], const uint64_t a[8], uint64_t y[8]);

#endif
