/*
 * Sheets of products.
 */
#ifndef BENCH_PRODUCT_SHEET_H
#define BENCH_PRODUCT_SHEET_H

#include <stddef.h>
#include <stdint.h>

enum { PRODUCT_BYTES = 3 };

/* Products on either side, at changing places among the first so many. Returns the sheet's
   length. */
size_t make_products_over(size_t places, uint8_t *sheet, size_t commands);

#endif
