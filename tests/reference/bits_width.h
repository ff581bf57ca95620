/*
 * Included by bits.c, once with WIDTH 32 and once with WIDTH 64.
 */

static void AT_WIDTH(digest_of_bits)(uint32_t size, const uint8_t *message,
                                     size_t message_bits, uint8_t *digest)
{
    static uint8_t padded[MOST_PADDED_BITS / 8];
    WORD pipe[16];
    size_t len = pad_message(8 * BLOCK_BYTES, message, message_bits, padded);
    memcpy(pipe, AT_WIDTH(start)(size), sizeof pipe);
    for (size_t at = 0; at < len; at += BLOCK_BYTES)
        AT_WIDTH(add_block)(pipe, padded + at);
    AT_WIDTH(store_digest)(pipe, digest, size / 8);
}
