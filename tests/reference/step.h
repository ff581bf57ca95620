/*
 * Steps of one block over a lent pipe: what edonr_block_forward and edonr_block_backward
 * do, written independently. reference_init comes first.
 */
#ifndef REFERENCE_STEP_H
#define REFERENCE_STEP_H

#include <stddef.h>
#include <stdint.h>

uint64_t reference_block_forward(uint32_t width, uint8_t *pipe, size_t pipe_len,
                                 const uint8_t *block, size_t block_len);

uint64_t reference_block_backward(uint32_t width, uint8_t *pipe, size_t pipe_len,
                                  const uint8_t *block, size_t block_len);

#endif
