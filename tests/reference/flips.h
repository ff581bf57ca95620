/*
 * How many bits of a digest flipped, of each of several pairs of digests: what
 * edonr_flipped_bits does, written independently, from document 02, Paper 14.
 */
#ifndef REFERENCE_FLIPS_H
#define REFERENCE_FLIPS_H

#include <stddef.h>
#include <stdint.h>

uint64_t reference_flipped_bits(const uint8_t *records, size_t records_len,
                                uint16_t *counts, size_t counts_len);

#endif
