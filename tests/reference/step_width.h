/*
 * Included by step.c, once with WIDTH 32 and once with WIDTH 64.
 */

#define DEFINE_ON_BYTES(name, step)                                                        \
    static void AT_WIDTH(name)(uint8_t *bytes, const uint8_t *block)                       \
    {                                                                                      \
        WORD pipe[16];                                                                     \
        AT_WIDTH(load_pipe)(bytes, pipe);                                                  \
        AT_WIDTH(step)(pipe, block);                                                       \
        AT_WIDTH(store_pipe)(pipe, bytes);                                                 \
    }

DEFINE_ON_BYTES(step_forward, add_block)
DEFINE_ON_BYTES(step_backward, remove_block)

#undef DEFINE_ON_BYTES
