/*
 * Included by hash.c, once with WIDTH 32 and once with WIDTH 64.
 */

#define HASH struct AT_WIDTH(hash)

static bool AT_WIDTH(in_form)(const HASH *hash)
{
    return AT_WIDTH(is_size)(hash->size) && hash->total <= MOST_BYTES_FED;
}

uint64_t AT_WIDTH(reference_open)(HASH *hash, uint32_t size)
{
    if (!AT_WIDTH(is_size)(size))
        return refuse(BAD_SIZE, 0);
    memset(hash, 0, sizeof *hash);
    hash->size = size;
    memcpy(hash->pipe, AT_WIDTH(start)(size), sizeof hash->pipe);
    return 0;
}

/* The bytes that wait and the bytes fed, block by block; what is left over waits, with
   zeros behind it. */
static void AT_WIDTH(advance)(HASH *hash, const uint8_t *bytes, size_t len)
{
    size_t pending = (size_t)(hash->total % BLOCK_BYTES);
    size_t missing = BLOCK_BYTES - pending;
    hash->total += len;
    if (len >= missing) {
        memcpy(hash->waiting + pending, bytes, missing);
        AT_WIDTH(add_block)(hash->pipe, hash->waiting);
        bytes += missing;
        len -= missing;
        for (; len >= BLOCK_BYTES; bytes += BLOCK_BYTES, len -= BLOCK_BYTES)
            AT_WIDTH(add_block)(hash->pipe, bytes);
        pending = 0;
    }
    memcpy(hash->waiting + pending, bytes, len);
    memset(hash->waiting + pending + len, 0, BLOCK_BYTES - pending - len);
}

uint64_t AT_WIDTH(reference_feed)(HASH *hash, const uint8_t *bytes, size_t len)
{
    if (!AT_WIDTH(in_form)(hash))
        return refuse_marked(BAD_STATE);
    if (len > MOST_BYTES_FED - hash->total)
        return refuse_marked(MESSAGE_TOO_LONG);
    AT_WIDTH(advance)(hash, bytes, len);
    return hash->total;
}

uint64_t AT_WIDTH(reference_finish)(const HASH *hash, uint8_t *out, size_t out_len)
{
    WORD pipe[16];
    uint8_t padded[2 * BLOCK_BYTES];
    if (!AT_WIDTH(in_form)(hash))
        return refuse(BAD_STATE, 0);
    if (out_len < hash->size / 8)
        return refuse(OUTPUT_TOO_SHORT, 0);
    size_t pending = (size_t)(hash->total % BLOCK_BYTES);
    size_t padded_len = AT_WIDTH(pad)(hash->waiting, pending, hash->total, padded);
    memcpy(pipe, hash->pipe, sizeof pipe);
    for (size_t at = 0; at < padded_len; at += BLOCK_BYTES)
        AT_WIDTH(add_block)(pipe, padded + at);
    AT_WIDTH(store_digest)(pipe, out, (size_t)hash->size / 8);
    return hash->size / 8;
}

/* The pipe after the last blocks: of the bits that wait, those of the last byte and the
   padding. Whole blocks before them do not change where a block ends. */
static void AT_WIDTH(end_with_bits)(const HASH *hash, uint8_t last, uint32_t count,
                                    WORD pipe[16])
{
    uint8_t room[2 * 8 * BLOCK_BYTES], padded[2 * BLOCK_BYTES];
    struct bits bits = {room, 0};
    append_bits(&bits, hash->waiting, 8 * (size_t)(hash->total % BLOCK_BYTES));
    append_bits(&bits, &last, count);
    append_padding(&bits, 8 * BLOCK_BYTES, 8 * hash->total + count);
    pack_bits(&bits, padded);
    memcpy(pipe, hash->pipe, sizeof hash->pipe);
    for (size_t at = 0; at < bits.len / 8; at += BLOCK_BYTES)
        AT_WIDTH(add_block)(pipe, padded + at);
}

uint64_t AT_WIDTH(reference_finish_bits)(const HASH *hash, uint8_t last, uint32_t count,
                                         uint8_t *out, size_t out_len)
{
    WORD pipe[16];
    if (!AT_WIDTH(in_form)(hash))
        return refuse(BAD_STATE, 0);
    if (count > 7)
        return refuse(BAD_BIT_COUNT, 0);
    if (out_len < hash->size / 8)
        return refuse(OUTPUT_TOO_SHORT, 0);
    AT_WIDTH(end_with_bits)(hash, last, count, pipe);
    AT_WIDTH(store_digest)(pipe, out, (size_t)hash->size / 8);
    return hash->size / 8;
}

#undef HASH
