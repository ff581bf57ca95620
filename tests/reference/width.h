/*
 * Names that carry the width, for the files that are included once a width.
 */
#ifndef REFERENCE_WIDTH_H
#define REFERENCE_WIDTH_H

#include <stdint.h>

typedef uint32_t word_32;
typedef uint64_t word_64;

#define JOIN_EXPANDED(name, width) name##_##width
#define JOIN(name, width) JOIN_EXPANDED(name, width)

/* AT_WIDTH(product) is product_32 where WIDTH is 32. */
#define AT_WIDTH(name) JOIN(name, WIDTH)
#define WORD AT_WIDTH(word)

#endif
