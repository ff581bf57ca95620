/*
 * Product and divisions on bytes: what edonr_product, edonr_left_division and
 * edonr_right_division do, written independently. reference_init comes first.
 */
#ifndef REFERENCE_PRODUCT_H
#define REFERENCE_PRODUCT_H

#include <stddef.h>
#include <stdint.h>

uint64_t reference_product(uint32_t width, const uint8_t *x, size_t x_len, const uint8_t *y,
                           size_t y_len, uint8_t *out, size_t out_len);

uint64_t reference_left_division(uint32_t width, const uint8_t *a, size_t a_len,
                                 const uint8_t *b, size_t b_len, uint8_t *out,
                                 size_t out_len);

uint64_t reference_right_division(uint32_t width, const uint8_t *b, size_t b_len,
                                  const uint8_t *a, size_t a_len, uint8_t *out,
                                  size_t out_len);

#endif
