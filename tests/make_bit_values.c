/*
 * Prints tests/vectors/bits.txt: digests of messages of any number of bits, worked out bit
 * by bit. It is linked with the reference alone, so that the archive has no part in it:
 *
 *   gcc -O2 tests/make_bit_values.c tests/harness/rng.c tests/reference/bits.c
 *   ./a.out >tests/vectors/bits.txt
 */
#include <stdint.h>
#include <stdio.h>

#include "harness/rng.h"
#include "reference/bits.h"

enum { EVERY_LENGTH = 40, MOST_BITS = 8000 };

/* In front of a block's 64 bits of length, and at its end: one block and two, of 512 bits
   and of 1,024. */
static const size_t edges[] = {448, 512, 960, 1024, 1984, 2048};
static const size_t longer[] = {3333, 5555, 7777};

static const char *const head[] = {
    "# Digests of messages of any number of bits, at four sizes, in the form of the "
    "entries",
    "# of NIST's test files: Len is the number of bits, Msg the message in hexadecimal and "
    "MD",
    "# its digest. The first bit is the highest of the first byte. Behind the last bit its",
    "# byte has zeros, and a message of no bits is written as 00.",
    "#",
    "# The published test set itself could not be had, and no entry here is taken from it.",
    "# These values were made by the implementation in tests/reference that works bit by "
    "bit",
    "# (bits.c). tests/make_bit_values.c prints this file, and tests/bit_values.c holds "
    "the",
    "# archive against every entry.",
    "#",
    "# Lengths are 0 to 40 bits; then, from a byte before to a byte behind, those around "
    "the",
    "# ends of one block and of two, and around the places where a block has no room left "
    "for",
    "# the padding, of either kind; and three longer ones. The message of a length has the",
    "# bytes that tests/harness/rng.c gives from the length as its seed.",
};

static void print_hex(const char *name, const uint8_t *bytes, size_t len)
{
    printf("%s = ", name);
    for (size_t i = 0; i < len; i++)
        printf("%02X", bytes[i]);
    putchar('\n');
}

static void print_entry(uint32_t size, size_t bits)
{
    uint8_t message[MOST_BITS / 8] = {0}, digest[64];
    size_t len = bits == 0 ? 1 : (bits + 7) / 8;
    struct rng rng = {bits};
    rng_fill(&rng, message, len);
    message[len - 1] &= (uint8_t)(0xFF << (8 * len - bits));
    reference_digest_of_bits(size, message, bits, digest);
    printf("\nLen = %zu\n", bits);
    print_hex("Msg", message, len);
    print_hex("MD", digest, size / 8);
}

static void print_size(uint32_t size)
{
    printf("\nSize = %u\n", (unsigned)size);
    for (size_t bits = 0; bits <= EVERY_LENGTH; bits++)
        print_entry(size, bits);
    for (unsigned i = 0; i < sizeof edges / sizeof edges[0]; i++)
        for (size_t bits = edges[i] - 8; bits <= edges[i] + 8; bits++)
            print_entry(size, bits);
    for (unsigned i = 0; i < sizeof longer / sizeof longer[0]; i++)
        print_entry(size, longer[i]);
}

int main(void)
{
    for (unsigned i = 0; i < sizeof head / sizeof head[0]; i++)
        puts(head[i]);
    print_size(224);
    print_size(256);
    print_size(384);
    print_size(512);
    return 0;
}
