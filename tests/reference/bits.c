#include "bits.h"

#include "block.h"

/* The single one and the zeros take a block at most, and the length 64 bits. */
enum { MOST_PADDED_BITS = MOST_MESSAGE_BITS + 1024 + 64 };

static void append_bit(struct bits *bits, unsigned bit)
{
    bits->at[bits->len++] = bit & 1;
}

void append_bits(struct bits *bits, const uint8_t *bytes, size_t count)
{
    for (size_t i = 0; i < count; i++)
        append_bit(bits, bytes[i / 8] >> (7 - i % 8));
}

void append_padding(struct bits *bits, size_t block_bits, uint64_t message_bits)
{
    append_bit(bits, 1);
    while (bits->len % block_bits != block_bits - 64)
        append_bit(bits, 0);
    for (unsigned i = 0; i < 8; i++) {
        uint8_t byte = (uint8_t)(message_bits >> (8 * i));
        append_bits(bits, &byte, 8);
    }
}

void pack_bits(const struct bits *bits, uint8_t *bytes)
{
    for (size_t i = 0; i < bits->len; i += 8) {
        unsigned byte = 0;
        for (size_t j = i; j < i + 8; j++)
            byte = 2 * byte + bits->at[j];
        bytes[i / 8] = (uint8_t)byte;
    }
}

/* The padded message in bytes. Returns their number. */
static size_t pad_message(size_t block_bits, const uint8_t *message, size_t message_bits,
                          uint8_t *padded)
{
    static uint8_t room[MOST_PADDED_BITS];
    struct bits bits = {room, 0};
    append_bits(&bits, message, message_bits);
    append_padding(&bits, block_bits, message_bits);
    pack_bits(&bits, padded);
    return bits.len / 8;
}

#define WIDTH 32
#include "bits_width.h"
#undef WIDTH

#define WIDTH 64
#include "bits_width.h"
#undef WIDTH

void reference_digest_of_bits(uint32_t size, const uint8_t *message, size_t message_bits,
                              uint8_t *digest)
{
    if (size <= 256)
        digest_of_bits_32(size, message, message_bits, digest);
    else
        digest_of_bits_64(size, message, message_bits, digest);
}
