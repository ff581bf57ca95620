#include "step_call.h"

#include <inttypes.h>
#include <string.h>

#include "../reference/answer.h"
#include "../reference/step.h"
#include "check.h"
#include "edonr.h"
#include "lent.h"

step_function *const archive_steps[DIRECTIONS] = {edonr_block_forward,
                                                  edonr_block_backward};
step_function *const reference_steps[DIRECTIONS] = {reference_block_forward,
                                                    reference_block_backward};

static struct lent lent_pipe, lent_block;

static void place_buffers(const struct step *step, const uint8_t *pipe, size_t pipe_len)
{
    if (lent_block.area == NULL) {
        lent_pipe = lent_area(STEP_CALL_CAPACITY, 1);
        lent_block = lent_area(STEP_CALL_CAPACITY, 1);
    }
    lent_place(&lent_pipe, pipe, pipe_len);
    lent_place(&lent_block, step->block, step->block_len);
}

uint64_t check_step_call(const struct step *step, uint8_t *pipe, size_t pipe_len)
{
    uint8_t after[STEP_CALL_CAPACITY];
    size_t held = pipe_len <= STEP_CALL_CAPACITY ? pipe_len : 0;
    memcpy(after, pipe, held);
    place_buffers(step, pipe, pipe_len);

    uint64_t want = reference_steps[step->direction](step->width, after, pipe_len,
                                                     step->block, step->block_len);
    uint64_t got = archive_steps[step->direction](step->width, lent_pipe.bytes, pipe_len,
                                                  lent_block.bytes, step->block_len);

    bool stands = !is_refusal(want) || memcmp(after, pipe, held) == 0;
    check(got == want && stands && lent_holds(&lent_pipe, after) &&
              lent_holds(&lent_block, step->block),
          "%s step, width %" PRIu32 ", pipe of %zu bytes, block of %zu: answered %" PRIx64
          ", expected %" PRIx64,
          direction_name(step->direction), step->width, pipe_len, step->block_len, got,
          want);
    if (held > 0)
        memcpy(pipe, lent_pipe.bytes, held);
    return got;
}
