/*
 * The byte shuffle of records and its way back: what edonr_shuffle and edonr_unshuffle do,
 * written independently, from document 02, Paper 13.
 */
#ifndef REFERENCE_SHUFFLE_H
#define REFERENCE_SHUFFLE_H

#include <stddef.h>
#include <stdint.h>

uint64_t reference_shuffle(uint32_t width, const uint8_t *records, size_t records_len,
                           uint8_t *out, size_t out_len);

uint64_t reference_unshuffle(uint32_t width, const uint8_t *records, size_t records_len,
                             uint8_t *out, size_t out_len);

#endif
