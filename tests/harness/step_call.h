/*
 * One step of a block, made by the archive and by the reference.
 */
#ifndef HARNESS_STEP_CALL_H
#define HARNESS_STEP_CALL_H

#include <stddef.h>
#include <stdint.h>

#include "direction.h"

typedef uint64_t step_function(uint32_t width, uint8_t *pipe, size_t pipe_len,
                               const uint8_t *block, size_t block_len);

extern step_function *const archive_steps[DIRECTIONS];
extern step_function *const reference_steps[DIRECTIONS];

/* What a pipe takes at either width, in bytes, and a block as well. */
enum { PIPE_32 = 2 * 32, PIPE_64 = 2 * 64 };

/* The longest pipe and the longest block that are lent, in bytes. What is longer is only
   claimed; no step accepts it. */
enum { STEP_CALL_CAPACITY = 4 * PIPE_64 };

struct step {
    enum direction direction;
    uint32_t width;
    const uint8_t *block;
    size_t block_len;
};

/* Counts one comparison: it passes if both give the same answer and leave the same pipe,
   block and guards stand, and a refusal leaves the pipe. Afterwards pipe holds what the
   archive left. Returns the archive's answer. */
uint64_t check_step_call(const struct step *step, uint8_t *pipe, size_t pipe_len);

#endif
