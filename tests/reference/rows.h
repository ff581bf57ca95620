/*
 * The numbers that make EDON-R's product: document 001, Tables 2.1 to 2.4.
 */
#ifndef REFERENCE_ROWS_H
#define REFERENCE_ROWS_H

#include <stdint.h>

/*
 * ROW(i, a, b, c, d, e, p, q, r): sum i is over the words a to e of the operand, and
 * combination i is the XOR of the rotated sums p, q and r. The same at both widths.
 */
#define LEFT_ROWS(ROW)                                                                     \
    ROW(0, 0, 1, 2, 4, 7, 3, 5, 6)                                                         \
    ROW(1, 0, 1, 3, 4, 7, 2, 5, 6)                                                         \
    ROW(2, 0, 1, 4, 6, 7, 2, 3, 5)                                                         \
    ROW(3, 2, 3, 5, 6, 7, 0, 1, 4)                                                         \
    ROW(4, 1, 2, 3, 5, 6, 0, 4, 7)                                                         \
    ROW(5, 0, 2, 3, 4, 5, 1, 6, 7)                                                         \
    ROW(6, 0, 1, 5, 6, 7, 2, 3, 4)                                                         \
    ROW(7, 2, 3, 4, 5, 6, 0, 1, 7)

#define RIGHT_ROWS(ROW)                                                                    \
    ROW(0, 0, 1, 2, 5, 7, 3, 4, 6)                                                         \
    ROW(1, 0, 1, 3, 4, 6, 2, 5, 7)                                                         \
    ROW(2, 0, 1, 2, 3, 5, 4, 6, 7)                                                         \
    ROW(3, 2, 3, 4, 6, 7, 0, 1, 5)                                                         \
    ROW(4, 0, 1, 3, 4, 5, 2, 6, 7)                                                         \
    ROW(5, 2, 4, 5, 6, 7, 0, 1, 3)                                                         \
    ROW(6, 1, 2, 5, 6, 7, 0, 3, 4)                                                         \
    ROW(7, 0, 3, 4, 6, 7, 1, 2, 5)

/* A combination takes the three numbers that are not in the list of its sum. */
#define ROW_IS_A_SPLIT(i, a, b, c, d, e, p, q, r)                                          \
    _Static_assert((1 << (a) | 1 << (b) | 1 << (c) | 1 << (d) | 1 << (e) | 1 << (p) |      \
                    1 << (q) | 1 << (r)) == 0xFF,                                          \
                   "a row names each of the eight numbers once");
LEFT_ROWS(ROW_IS_A_SPLIT)
RIGHT_ROWS(ROW_IS_A_SPLIT)
#undef ROW_IS_A_SPLIT

enum half { LEFT, RIGHT };

/* What sum i of each half is rotated by. */
static const unsigned rotations_32[2][8] = {
    {0, 4, 8, 13, 17, 22, 24, 29},
    {0, 5, 9, 11, 15, 20, 25, 27},
};

static const unsigned rotations_64[2][8] = {
    {0, 5, 15, 22, 31, 40, 50, 59},
    {0, 10, 19, 29, 36, 44, 48, 55},
};

/* Added to sum 0 of each half. */
static const uint32_t constants_32[2] = {0xAAAAAAAAu, 0x55555555u};
static const uint64_t constants_64[2] = {0xAAAAAAAAAAAAAAAAu, 0x5555555555555555u};

/* Combination i of the two halves, added, is this word of the result. */
#define RESULT_WORD(i) (((i) + 5) % 8)

#endif
