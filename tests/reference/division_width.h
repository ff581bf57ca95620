/*
 * Included by division.c, once with WIDTH 32 and once with WIDTH 64.
 */

/* The inverses of the two squares of sums, modulo 2^WIDTH. */
static WORD AT_WIDTH(sum_inverses)[2][8][8];

/* An odd number's order divides 2^(WIDTH - 2), so its inverse is its power by one less. */
static WORD AT_WIDTH(odd_inverse)(WORD odd)
{
    WORD power = 1;
    for (unsigned i = 0; i < WIDTH - 2; i++) {
        power *= odd;
        odd *= odd;
    }
    return power;
}

static void AT_WIDTH(swap_rows)(WORD a[16], WORD b[16])
{
    WORD kept[16];
    memcpy(kept, a, sizeof kept);
    memcpy(a, b, sizeof kept);
    memcpy(b, kept, sizeof kept);
}

/* An even pivot has no inverse modulo a power of two. */
static unsigned AT_WIDTH(odd_pivot)(WORD rows[8][16], unsigned column)
{
    unsigned pivot = column;
    while (pivot < 8 && rows[pivot][column] % 2 == 0)
        pivot++;
    if (pivot == 8)
        abort();
    return pivot;
}

/* Gauss-Jordan elimination modulo 2^WIDTH; the first eight columns are the square to
   invert, the last eight become its inverse. */
static void AT_WIDTH(eliminate)(WORD rows[8][16])
{
    for (unsigned column = 0; column < 8; column++) {
        unsigned pivot = AT_WIDTH(odd_pivot)(rows, column);
        if (pivot != column)
            AT_WIDTH(swap_rows)(rows[pivot], rows[column]);
        WORD scale = AT_WIDTH(odd_inverse)(rows[column][column]);
        for (unsigned j = 0; j < 16; j++)
            rows[column][j] *= scale;
        for (unsigned i = 0; i < 8; i++) {
            WORD factor = rows[i][column];
            for (unsigned j = 0; j < 16 && i != column; j++)
                rows[i][j] -= factor * rows[column][j];
        }
    }
}

static void AT_WIDTH(invert_sums)(enum half half)
{
    WORD rows[8][16] = {{0}};
    for (unsigned i = 0; i < 8; i++) {
        for (unsigned k = 0; k < 5; k++)
            rows[i][sum_places[half][i][k]] = 1;
        rows[i][8 + i] = 1;
    }
    AT_WIDTH(eliminate)(rows);
    for (unsigned i = 0; i < 8; i++)
        memcpy(AT_WIDTH(sum_inverses)[half][i], &rows[i][8], 8 * sizeof(WORD));
}

static WORD AT_WIDTH(rotate_right)(WORD word, unsigned amount)
{
    return AT_WIDTH(rotate_left)(word, (WIDTH - amount) % WIDTH);
}

/* The operand whose half is h. */
static void AT_WIDTH(undo_half)(enum half half, const WORD h[8], WORD v[8])
{
    WORD t[8];
    for (unsigned i = 0; i < 8; i++) {
        WORD word = 0;
        for (unsigned j = 0; j < 8; j++)
            if (combination_inverses[half][i] >> j & 1)
                word ^= h[j];
        t[i] = AT_WIDTH(rotate_right)(word, AT_WIDTH(rotations)[half][i]);
    }
    t[0] -= AT_WIDTH(constants)[half];
    for (unsigned i = 0; i < 8; i++) {
        v[i] = 0;
        for (unsigned j = 0; j < 8; j++)
            v[i] += AT_WIDTH(sum_inverses)[half][i][j] * t[j];
    }
}

/* The half that, added to the known one, gives the product. */
static void AT_WIDTH(other_half)(const WORD product[8], const WORD known[8], WORD other[8])
{
    for (unsigned i = 0; i < 8; i++)
        other[i] = product[RESULT_WORD(i)] - known[i];
}

void AT_WIDTH(reference_divide_left)(const WORD a[8], const WORD b[8], WORD x[8])
{
    WORD known[8], other[8];
    AT_WIDTH(left_half)(AT_WIDTH(rotations), a, known);
    AT_WIDTH(other_half)(b, known, other);
    AT_WIDTH(undo_half)(RIGHT, other, x);
}

void AT_WIDTH(reference_divide_right)(const WORD b[8], const WORD a[8], WORD y[8])
{
    WORD known[8], other[8];
    AT_WIDTH(right_half)(AT_WIDTH(rotations), a, known);
    AT_WIDTH(other_half)(b, known, other);
    AT_WIDTH(undo_half)(LEFT, other, y);
}
