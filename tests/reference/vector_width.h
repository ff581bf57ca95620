/*
 * Included by vector.h, once with WIDTH 32 and once with WIDTH 64.
 *
 * Everything is written out with constant places, and in line, so that amounts known to
 * the compiler are constants too. As loops over tables the product is many times slower
 * and no measure for a benchmark, and of a loop over words gcc makes wide loads that wait
 * for the narrow stores of the call before.
 */

static inline void AT_WIDTH(load_vector)(const uint8_t *bytes, WORD v[8])
{
#define LOAD(i) memcpy(&v[i], bytes + i * sizeof(WORD), sizeof(WORD));
    EACH_WORD(LOAD)
#undef LOAD
}

static inline void AT_WIDTH(store_vector)(const WORD v[8], uint8_t *bytes)
{
#define STORE(i) memcpy(bytes + i * sizeof(WORD), &v[i], sizeof(WORD));
    EACH_WORD(STORE)
#undef STORE
}

static inline void AT_WIDTH(reverse)(const WORD v[8], WORD reversed[8])
{
#define PLACE(i) reversed[i] = v[7 - i];
    EACH_WORD(PLACE)
#undef PLACE
}

static inline WORD AT_WIDTH(rotate_left)(WORD word, unsigned amount)
{
    return word << amount | word >> (WIDTH - amount) % WIDTH;
}

#define SUM(i, a, b, c, d, e, p, q, r)                                                     \
    t[i] = (i == 0 ? AT_WIDTH(constants)[half] : 0) + v[a] + v[b] + v[c] + v[d] + v[e];    \
    t[i] = AT_WIDTH(rotate_left)(t[i], amounts[half][i]);
#define COMBINATION(i, a, b, c, d, e, p, q, r) h[i] = t[p] ^ t[q] ^ t[r];

#define DEFINE_HALF(name, number, ROWS)                                                    \
    IN_LINE void AT_WIDTH(name)(const unsigned amounts[2][8], const WORD v[8], WORD h[8])  \
    {                                                                                      \
        enum { half = number };                                                            \
        WORD t[8];                                                                         \
        ROWS(SUM)                                                                          \
        ROWS(COMBINATION)                                                                  \
    }

DEFINE_HALF(left_half, LEFT, LEFT_ROWS)
DEFINE_HALF(right_half, RIGHT, RIGHT_ROWS)

#undef SUM
#undef COMBINATION
#undef DEFINE_HALF

/* The product with these amounts. z may be x or y. */
IN_LINE void AT_WIDTH(multiply_by)(const unsigned amounts[2][8], const WORD x[8],
                                   const WORD y[8], WORD z[8])
{
    WORD l[8], r[8];
    AT_WIDTH(left_half)(amounts, x, l);
    AT_WIDTH(right_half)(amounts, y, r);
#define ADD(i) z[RESULT_WORD(i)] = l[i] + r[i];
    EACH_WORD(ADD)
#undef ADD
}

/* The product with the amounts of document 001. z may be x or y. */
static inline void AT_WIDTH(multiply)(const WORD x[8], const WORD y[8], WORD z[8])
{
    AT_WIDTH(multiply_by)(AT_WIDTH(rotations), x, y, z);
}
