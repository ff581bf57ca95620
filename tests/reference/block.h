/*
 * Starting values, padding, the step of one block, forward and back, and what a digest
 * takes from the pipe, at both widths. Before a step back, reference_init comes first.
 */
#ifndef REFERENCE_BLOCK_H
#define REFERENCE_BLOCK_H

#include <stddef.h>
#include <string.h>

#include "division.h"
#include "variant.h"
#include "vector.h"

/* Document 001, Tables 1.3 to 1.6. The 24 in word 13 of 224 and in word 6 of 384 breaks the
   run of consecutive bytes; the tables print it so. */
static const uint32_t start_224[16] = {
    0x00010203, 0x04050607, 0x08090A0B, 0x0C0D0E0F, 0x10111213, 0x14151617,
    0x18191A1B, 0x1C1D1E1F, 0x20212223, 0x24252627, 0x28292A2B, 0x2C2D2E2F,
    0x30313233, 0x24353637, 0x38393A3B, 0x3C3D3E3F,
};

static const uint32_t start_256[16] = {
    0x40414243, 0x44454647, 0x48494A4B, 0x4C4D4E4F, 0x50515253, 0x54555657,
    0x58595A5B, 0x5C5D5E5F, 0x60616263, 0x64656667, 0x68696A6B, 0x6C6D6E6F,
    0x70717273, 0x74757677, 0x78797A7B, 0x7C7D7E7F,
};

static const uint64_t start_384[16] = {
    0x0001020304050607, 0x08090A0B0C0D0E0F, 0x1011121314151617, 0x18191A1B1C1D1E1F,
    0x2021222324252627, 0x28292A2B2C2D2E2F, 0x3031323324353637, 0x38393A3B3C3D3E3F,
    0x4041424344454647, 0x48494A4B4C4D4E4F, 0x5051525354555657, 0x58595A5B5C5D5E5F,
    0x6061626364656667, 0x68696A6B6C6D6E6F, 0x7071727374757677, 0x78797A7B7C7D7E7F,
};

static const uint64_t start_512[16] = {
    0x8081828384858687, 0x88898A8B8C8D8E8F, 0x9091929394959697, 0x98999A9B9C9D9E9F,
    0xA0A1A2A3A4A5A6A7, 0xA8A9AAABACADAEAF, 0xB0B1B2B3B4B5B6B7, 0xB8B9BABBBCBDBEBF,
    0xC0C1C2C3C4C5C6C7, 0xC8C9CACBCCCDCECF, 0xD0D1D2D3D4D5D6D7, 0xD8D9DADBDCDDDEDF,
    0xE0E1E2E3E4E5E6E7, 0xE8E9EAEBECEDEEEF, 0xF0F1F2F3F4F5F6F7, 0xF8F9FAFBFCFDFEFF,
};

/* The starting values of a size of that width. */
static inline const uint32_t *start_32(uint64_t size)
{
    return size == 224 ? start_224 : start_256;
}

static inline const uint64_t *start_64(uint64_t size)
{
    return size == 384 ? start_384 : start_512;
}

#define BLOCK_BYTES (2 * WIDTH)

#define WIDTH 32
#include "block_width.h"
#undef WIDTH

#define WIDTH 64
#include "block_width.h"
#undef WIDTH

#endif
