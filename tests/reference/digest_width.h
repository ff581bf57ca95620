/*
 * Included by digest.c, once with WIDTH 32 and once with WIDTH 64.
 */

static void AT_WIDTH(add_block_of)(const struct variant *variant, WORD pipe[16],
                                   const uint8_t *block)
{
    AT_WIDTH(add_block_by)(variant->order, variant->AT_WIDTH(amounts), pipe, block);
}

static inline void AT_WIDTH(add_blocks)(const struct variant *variant, WORD pipe[16],
                                        const uint8_t *blocks, size_t len)
{
    for (size_t at = 0; at < len; at += BLOCK_BYTES) {
        if (variant == NULL)
            AT_WIDTH(add_block)(pipe, blocks + at);
        else
            AT_WIDTH(add_block_of)(variant, pipe, blocks + at);
    }
}

/* Without a variant, as the printed values have it. */
static void AT_WIDTH(digest)(const struct variant *variant, const WORD start[16],
                             const uint8_t *message, size_t message_len, uint8_t *out,
                             size_t digest_len)
{
    WORD pipe[16];
    uint8_t padded[2 * BLOCK_BYTES];
    size_t whole_len = message_len / BLOCK_BYTES * BLOCK_BYTES;
    memcpy(pipe, start, sizeof pipe);
    AT_WIDTH(add_blocks)(variant, pipe, message, whole_len);
    size_t padded_len =
        AT_WIDTH(pad)(message + whole_len, message_len - whole_len, message_len, padded);
    AT_WIDTH(add_blocks)(variant, pipe, padded, padded_len);
    AT_WIDTH(store_digest)(pipe, out, digest_len);
}
