#include "division.h"

#include <stdlib.h>
#include <string.h>

#include "vector.h"

/* Row i: the places of the words in sum i, and of the rotated sums in combination i. */
static const uint8_t sum_places[2][8][5] = {
#define PLACES(i, a, b, c, d, e, p, q, r) {a, b, c, d, e},
    {LEFT_ROWS(PLACES)},
    {RIGHT_ROWS(PLACES)},
#undef PLACES
};

static const uint8_t combination_places[2][8][3] = {
#define PLACES(i, a, b, c, d, e, p, q, r) {p, q, r},
    {LEFT_ROWS(PLACES)},
    {RIGHT_ROWS(PLACES)},
#undef PLACES
};

/* Bit j of entry i is the cell in row i and column j of the inverse over single bits. */
static uint8_t combination_inverses[2][8];

/* Elimination over single bits; the lower eight bits of a row are the square to invert,
   the upper eight become its inverse. */
static void eliminate_bits(uint16_t rows[8])
{
    for (unsigned column = 0; column < 8; column++) {
        unsigned pivot = column;
        while (pivot < 8 && !(rows[pivot] >> column & 1))
            pivot++;
        if (pivot == 8)
            abort();
        uint16_t row = rows[pivot];
        rows[pivot] = rows[column];
        rows[column] = row;
        for (unsigned i = 0; i < 8; i++)
            if (i != column && (rows[i] >> column & 1))
                rows[i] ^= row;
    }
}

static void invert_combinations(enum half half)
{
    uint16_t rows[8];
    for (unsigned i = 0; i < 8; i++) {
        rows[i] = (uint16_t)(0x100u << i);
        for (unsigned k = 0; k < 3; k++)
            rows[i] |= (uint16_t)(1u << combination_places[half][i][k]);
    }
    eliminate_bits(rows);
    for (unsigned i = 0; i < 8; i++)
        combination_inverses[half][i] = (uint8_t)(rows[i] >> 8);
}

#define WIDTH 32
#include "division_width.h"
#undef WIDTH

#define WIDTH 64
#include "division_width.h"
#undef WIDTH

void reference_init(void)
{
    for (enum half half = LEFT; half <= RIGHT; half++) {
        invert_combinations(half);
        invert_sums_32(half);
        invert_sums_64(half);
    }
}
