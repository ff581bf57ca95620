/*
 * EDON-R with something read in another way than the reference reads it: which half of
 * the pipe a block meets as C0 (the other half is C1), and the rotation amounts.
 *
 * Document 001 does not say in bytes which half is C0. Its printed HMAC values do: they
 * come out with the second half alone, and with the amounts of rows.h.
 */
#ifndef REFERENCE_VARIANT_H
#define REFERENCE_VARIANT_H

enum pipe_order { C0_IS_SECOND_HALF, C0_IS_FIRST_HALF };

struct variant {
    enum pipe_order order;
    const unsigned (*amounts_32)[8]; /* of the left half, then of the right */
    const unsigned (*amounts_64)[8];
};

/* The amounts of the library rhash. */
static const unsigned rhash_amounts_32[2][8] = {
    {0, 5, 11, 13, 17, 19, 29, 31},
    {0, 3, 7, 11, 17, 19, 23, 29},
};

static const unsigned rhash_amounts_64[2][8] = {
    {0, 5, 19, 29, 31, 41, 57, 61},
    {0, 3, 17, 23, 31, 37, 45, 59},
};

static const struct variant rhash_variant = {C0_IS_SECOND_HALF, rhash_amounts_32,
                                             rhash_amounts_64};

#endif
