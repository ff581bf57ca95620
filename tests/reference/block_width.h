/*
 * Included by block.h, once with WIDTH 32 and once with WIDTH 64.
 */

/* D1 and D2 of document 001, Definition 8, which the pipe does not enter. */
IN_LINE void AT_WIDTH(mix_block)(const unsigned amounts[2][8], const WORD x[8],
                                 const WORD y[8], WORD d1[8], WORD d2[8])
{
    WORD reversed[8];
    AT_WIDTH(reverse)(y, reversed);
    AT_WIDTH(multiply_by)(amounts, reversed, x, d1);
    AT_WIDTH(multiply_by)(amounts, d1, y, d2);
}

/* One block, halves x and y; document 001, Definition 8. */
IN_LINE void AT_WIDTH(add_block_by)(enum pipe_order order, const unsigned amounts[2][8],
                                    WORD pipe[16], const uint8_t *block)
{
    const WORD *c0 = order == C0_IS_SECOND_HALF ? pipe + 8 : pipe;
    const WORD *c1 = order == C0_IS_SECOND_HALF ? pipe : pipe + 8;
    WORD x[8], y[8], reversed[8];
    WORD d1[8], d2[8], d3[8], d4[8], d5[8], d6[8];
    AT_WIDTH(load_vector)(block, x);
    AT_WIDTH(load_vector)(block + WIDTH, y);
    AT_WIDTH(mix_block)(amounts, x, y, d1, d2);
    AT_WIDTH(multiply_by)(amounts, c0, d1, d3);
    AT_WIDTH(multiply_by)(amounts, d3, d2, d4);
    AT_WIDTH(multiply_by)(amounts, d3, c1, d5);
    AT_WIDTH(multiply_by)(amounts, d4, d5, d6);
    AT_WIDTH(reverse)(x, reversed);
    AT_WIDTH(multiply_by)(amounts, reversed, d5, pipe);
    AT_WIDTH(multiply_by)(amounts, pipe, d6, pipe + 8);
}

/* One block as the printed values have it. */
static inline void AT_WIDTH(add_block)(WORD pipe[16], const uint8_t *block)
{
    AT_WIDTH(add_block_by)(C0_IS_SECOND_HALF, AT_WIDTH(rotations), pipe, block);
}

/* The pipe before a block from the pipe after it. Each other product has one factor that is
   not known, and a division finds it; C1 comes last, as it needs D3. */
static inline void AT_WIDTH(remove_block)(WORD pipe[16], const uint8_t *block)
{
    const WORD *d7 = pipe, *d8 = pipe + 8;
    WORD *c0 = pipe + 8, *c1 = pipe;
    WORD x[8], y[8], reversed[8];
    WORD d1[8], d2[8], d3[8], d4[8], d5[8], d6[8];
    AT_WIDTH(load_vector)(block, x);
    AT_WIDTH(load_vector)(block + WIDTH, y);
    AT_WIDTH(mix_block)(AT_WIDTH(rotations), x, y, d1, d2);
    AT_WIDTH(reverse)(x, reversed);
    AT_WIDTH(reference_divide_left)(reversed, d7, d5);
    AT_WIDTH(reference_divide_left)(d7, d8, d6);
    AT_WIDTH(reference_divide_right)(d6, d5, d4);
    AT_WIDTH(reference_divide_right)(d4, d2, d3);
    AT_WIDTH(reference_divide_right)(d3, d1, c0);
    AT_WIDTH(reference_divide_left)(d3, d5, c1);
}

/* The pipe in bytes: its first vector, then its second. */
static inline void AT_WIDTH(load_pipe)(const uint8_t *bytes, WORD pipe[16])
{
    AT_WIDTH(load_vector)(bytes, pipe);
    AT_WIDTH(load_vector)(bytes + WIDTH, pipe + 8);
}

static inline void AT_WIDTH(store_pipe)(const WORD pipe[16], uint8_t *bytes)
{
    AT_WIDTH(store_vector)(pipe, bytes);
    AT_WIDTH(store_vector)(pipe + 8, bytes + WIDTH);
}

/* The bytes behind the last whole block, padded: 0x80, zeros, the length in bits with its
   lowest byte first. Gives the number of bytes, one block or two. */
static inline size_t AT_WIDTH(pad)(const uint8_t *rest, size_t rest_len,
                                   uint64_t message_len, uint8_t padded[2 * BLOCK_BYTES])
{
    size_t padded_len = rest_len + 1 + 8 <= BLOCK_BYTES ? BLOCK_BYTES : 2 * BLOCK_BYTES;
    uint64_t bits = 8 * message_len;
    memset(padded, 0, 2 * BLOCK_BYTES);
    memcpy(padded, rest, rest_len);
    padded[rest_len] = 0x80;
    for (unsigned i = 0; i < 8; i++)
        padded[padded_len - 8 + i] = (uint8_t)(bits >> (8 * i));
    return padded_len;
}

/* The last bytes of the pipe written out. */
static inline void AT_WIDTH(store_digest)(const WORD pipe[16], uint8_t *out,
                                          size_t digest_len)
{
    uint8_t pipe_bytes[2 * WIDTH];
    AT_WIDTH(store_pipe)(pipe, pipe_bytes);
    memcpy(out, pipe_bytes + sizeof pipe_bytes - digest_len, digest_len);
}
