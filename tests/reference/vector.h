/*
 * Vectors as values and their product, at both widths.
 */
#ifndef REFERENCE_VECTOR_H
#define REFERENCE_VECTOR_H

#include <string.h>

#include "rows.h"
#include "width.h"

/* Loads and stores copy whole words, since gcc leaves a byte by byte form slow. */
_Static_assert(__BYTE_ORDER__ == __ORDER_LITTLE_ENDIAN__,
               "a word in memory has its lowest byte first");

#define IN_LINE static inline __attribute__((always_inline))

#define EACH_WORD(DO) DO(0) DO(1) DO(2) DO(3) DO(4) DO(5) DO(6) DO(7)

#define WIDTH 32
#include "vector_width.h"
#undef WIDTH

#define WIDTH 64
#include "vector_width.h"
#undef WIDTH

#endif
