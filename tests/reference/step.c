#include "step.h"

#include "answer.h"
#include "block.h"

static uint64_t check_step(uint32_t width, size_t pipe_len, size_t block_len)
{
    if (width != 32 && width != 64)
        return refuse(BAD_WIDTH, 0);
    if (pipe_len != 2 * width || block_len != 2 * width)
        return refuse(BAD_LENGTH, 0);
    return 2 * width;
}

#define WIDTH 32
#include "step_width.h"
#undef WIDTH

#define WIDTH 64
#include "step_width.h"
#undef WIDTH

uint64_t reference_block_forward(uint32_t width, uint8_t *pipe, size_t pipe_len,
                                 const uint8_t *block, size_t block_len)
{
    uint64_t answer = check_step(width, pipe_len, block_len);
    if (is_refusal(answer))
        return answer;
    if (width == 32)
        step_forward_32(pipe, block);
    else
        step_forward_64(pipe, block);
    return answer;
}

uint64_t reference_block_backward(uint32_t width, uint8_t *pipe, size_t pipe_len,
                                  const uint8_t *block, size_t block_len)
{
    uint64_t answer = check_step(width, pipe_len, block_len);
    if (is_refusal(answer))
        return answer;
    if (width == 32)
        step_backward_32(pipe, block);
    else
        step_backward_64(pipe, block);
    return answer;
}
