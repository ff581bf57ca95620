/*
 * Steps of one block by the archive against the reference, bit for bit, forward and back.
 */
#include <inttypes.h>
#include <stdbool.h>
#include <stdio.h>
#include <string.h>

#include "edonr.h"
#include "harness/check.h"
#include "harness/random.h"
#include "harness/step_call.h"
#include "reference/answer.h"
#include "reference/block.h"
#include "reference/division.h"

enum {
    RANDOM_STEPS = 100000,
    PATTERN_STEPS = 20000,
    UNDONE_STEPS = 10000,
    RANDOM_WIDTHS = 20,
    EVERY_LENGTH = 300,
    LONG_MESSAGES = 20,
    MOST_MESSAGE = 1 << 14,
    LISTS = 3000,
    MOST_STEPS = 12
};

static const uint32_t widths[2] = {32, 64};

/* ---------------- one step ---------------- */

/* The block forward and back, each from the same pipe. */
static void check_both_directions(uint32_t width, const uint8_t *pipe, size_t pipe_len,
                                  const uint8_t *block, size_t block_len)
{
    uint8_t stepped[STEP_CALL_CAPACITY];
    for (enum direction d = FORWARD; d < DIRECTIONS; d++) {
        struct step step = {d, width, block, block_len};
        memcpy(stepped, pipe, pipe_len);
        check_step_call(&step, stepped, pipe_len);
    }
}

static void compare_random(uint32_t width)
{
    size_t len = 2 * (size_t)width;
    check_group("random pipes and blocks, width %" PRIu32, width);
    for (unsigned i = 0; i < RANDOM_STEPS; i++) {
        uint8_t pipe[PIPE_64], block[PIPE_64];
        random_fill(pipe, len);
        random_fill(block, len);
        check_both_directions(width, pipe, len, block, len);
    }
}

static void compare_patterns(uint32_t width)
{
    size_t len = 2 * (size_t)width;
    check_group("pipes and blocks by patterns, width %" PRIu32, width);
    for (unsigned i = 0; i < PATTERN_STEPS; i++) {
        uint8_t pipe[PIPE_64], block[PIPE_64];
        random_pattern(pipe, len);
        random_pattern(block, len);
        check_both_directions(width, pipe, len, block, len);
    }
}

/* Each single bit of pipe and block, among zeros and among ones. */
static void compare_bits(uint32_t width)
{
    size_t len = 2 * (size_t)width;
    check_group("pipes and blocks of one bit, and of all but one, width %" PRIu32, width);
    for (size_t n = 0; n < 2 * 8 * 2 * len; n++) {
        uint8_t both[2 * PIPE_64];
        size_t bit = n / 2;
        memset(both, n % 2 == 0 ? 0x00 : 0xFF, sizeof both);
        both[bit / 8] ^= (uint8_t)(1u << bit % 8);
        check_both_directions(width, both, len, both + len, len);
    }
}

/* A step of the one implementation, undone by the other, in either direction. */
static void check_undone(uint32_t width, const uint8_t *start, const uint8_t *block)
{
    step_function *const *steps[2] = {archive_steps, reference_steps};
    size_t len = 2 * (size_t)width;
    for (unsigned n = 0; n < 2 * DIRECTIONS; n++) {
        enum direction d = (enum direction)(n % DIRECTIONS);
        unsigned by = n / DIRECTIONS;
        uint8_t pipe[PIPE_64];
        memcpy(pipe, start, len);
        steps[by][d](width, pipe, len, block, len);
        check(memcmp(pipe, start, len) != 0, "a %s step moves nothing", direction_name(d));
        steps[1 - by][opposite(d)](width, pipe, len, block, len);
        check(memcmp(pipe, start, len) == 0, "a %s step is not undone", direction_name(d));
    }
}

static void compare_undone(uint32_t width)
{
    check_group("steps undone, width %" PRIu32, width);
    for (unsigned i = 0; i < UNDONE_STEPS; i++) {
        uint8_t pipe[PIPE_64], block[PIPE_64];
        random_fill(pipe, sizeof pipe);
        random_fill(block, sizeof block);
        check_undone(width, pipe, block);
    }
}

/* ---------------- refusals ---------------- */

/* One width with every pair of lengths. */
static void compare_refusals(uint32_t width)
{
    static const size_t lengths[] = {0,  1,   2,   31,  32,  63,  64, 65,
                                     66, 127, 128, 129, 192, 256, 512};
    enum { N = sizeof lengths / sizeof lengths[0] };
    uint8_t pipe[STEP_CALL_CAPACITY], block[STEP_CALL_CAPACITY];
    check_group("lengths at width %" PRIu32, width);
    random_fill(pipe, sizeof pipe);
    random_fill(block, sizeof block);
    for (unsigned n = 0; n < N * N; n++)
        check_both_directions(width, pipe, lengths[n / N], block, lengths[n % N]);
}

struct point {
    uint32_t width;
    size_t pipe_len, block_len;
    uint64_t answer;
};

#define OVER_32 ((uint64_t)1 << 32)
#define REFUSED(number) ((uint64_t)(number) << 32)

/* Answers as numbers, without the reference. */
static const struct point points[] = {
    {32, 64, 64, 64},
    {64, 128, 128, 128},
    {0, 0, 0, REFUSED(5)},
    {31, 62, 62, REFUSED(5)},
    {33, 64, 64, REFUSED(5)},
    {16, 32, 32, REFUSED(5)},
    {128, 256, 256, REFUSED(5)},
    {0x80000020, 64, 64, REFUSED(5)},
    {33, 1, 1, REFUSED(5)},
    {65, UINT64_MAX, UINT64_MAX, REFUSED(5)},
    {32, 0, 0, REFUSED(6)},
    {32, 63, 64, REFUSED(6)},
    {32, 65, 64, REFUSED(6)},
    {32, 64, 63, REFUSED(6)},
    {32, 64, 65, REFUSED(6)},
    {32, 32, 32, REFUSED(6)},
    {32, 128, 128, REFUSED(6)},
    {32, 64, 128, REFUSED(6)},
    {32, 128, 64, REFUSED(6)},
    {64, 64, 64, REFUSED(6)},
    {64, 127, 128, REFUSED(6)},
    {64, 128, 129, REFUSED(6)},
    {64, 128, 64, REFUSED(6)},
    {64, 64, 128, REFUSED(6)},
    {64, 256, 128, REFUSED(6)},
    {32, OVER_32 + 64, 64, REFUSED(6)},
    {32, 64, OVER_32 + 64, REFUSED(6)},
    {64, OVER_32 + 128, 128, REFUSED(6)},
    {64, 128, OVER_32 + 128, REFUSED(6)},
    {64, 128, UINT64_MAX, REFUSED(6)},
};

static void check_points(void)
{
    uint8_t pipe[STEP_CALL_CAPACITY], block[STEP_CALL_CAPACITY];
    check_group("answers as numbers");
    for (unsigned n = 0; n < DIRECTIONS * sizeof points / sizeof points[0]; n++) {
        const struct point *p = &points[n / DIRECTIONS];
        struct step step = {(enum direction)(n % DIRECTIONS), p->width, block,
                            p->block_len};
        random_fill(pipe, sizeof pipe);
        random_fill(block, sizeof block);
        uint64_t got = check_step_call(&step, pipe, p->pipe_len);
        check(got == p->answer, "%s, point %u: answered %" PRIx64,
              direction_name(step.direction), n / DIRECTIONS, got);
    }
}

/* ---------------- lists of steps ---------------- */

struct list {
    struct step steps[MOST_STEPS];
    uint8_t blocks[MOST_STEPS][STEP_CALL_CAPACITY];
    unsigned count;
    size_t pipe_len;
};

/* Mostly a step that a pipe of this length accepts; else one that is refused by its width,
   by the pipe's length at its width, or by the length of its block. */
static struct step random_step(size_t pipe_len, uint8_t block[STEP_CALL_CAPACITY])
{
    uint32_t width = pipe_len == PIPE_64 ? 64 : 32;
    size_t block_len = 2 * (size_t)width;
    switch (random_below(16)) {
    case 0: width ^= 1u << random_below(32); break;
    case 1: width = 96 - width; break;
    case 2: block_len = PIPE_32 + PIPE_64 - block_len; break;
    case 3: block_len = (size_t)random_below(STEP_CALL_CAPACITY + 1); break;
    }
    random_pattern(block, block_len);
    return (struct step){(enum direction)random_below(DIRECTIONS), width, block, block_len};
}

static void make_list(struct list *list)
{
    static const size_t lens[] = {PIPE_32, PIPE_64, PIPE_32, PIPE_64,    PIPE_32,
                                  PIPE_64, 0,       100,     PIPE_64 + 1};
    list->count = 1 + (unsigned)random_below(MOST_STEPS);
    list->pipe_len = lens[random_below(sizeof lens / sizeof lens[0])];
    for (unsigned i = 0; i < list->count; i++)
        list->steps[i] = random_step(list->pipe_len, list->blocks[i]);
}

/* Out, then home with directions exchanged and the last step first. Returns how many steps
   were accepted. */
static unsigned check_list(const struct list *list)
{
    uint8_t start[STEP_CALL_CAPACITY], pipe[STEP_CALL_CAPACITY];
    uint64_t answers[MOST_STEPS];
    unsigned accepted = 0;
    random_pattern(start, list->pipe_len);
    memcpy(pipe, start, list->pipe_len);
    for (unsigned i = 0; i < list->count; i++) {
        answers[i] = check_step_call(&list->steps[i], pipe, list->pipe_len);
        accepted += !is_refusal(answers[i]);
    }
    for (unsigned i = list->count; i > 0; i--) {
        struct step back = list->steps[i - 1];
        back.direction = opposite(back.direction);
        uint64_t answer = check_step_call(&back, pipe, list->pipe_len);
        check(answer == answers[i - 1], "step %u answered %" PRIx64 " and then %" PRIx64,
              i - 1, answers[i - 1], answer);
    }
    check(memcmp(pipe, start, list->pipe_len) == 0, "the start is not found again");
    return accepted;
}

static void compare_lists(void)
{
    static struct list list;
    unsigned steps = 0, accepted = 0;
    check_group("lists of steps, out and home");
    for (unsigned i = 0; i < LISTS; i++) {
        make_list(&list);
        accepted += check_list(&list);
        steps += list.count;
    }
    printf("  %u of %u steps on the way out were accepted\n", accepted, steps);
    check(accepted > steps / 4 && accepted < steps, "%u steps accepted", accepted);
}

/* ---------------- digests ---------------- */

/* Over all blocks, from the first to the last; backward, from the last to the first. */
static void walk(enum direction direction, uint32_t width, const uint8_t *blocks,
                 size_t len, uint8_t *pipe)
{
    size_t block_len = 2 * (size_t)width;
    for (size_t done = 0; done < len; done += block_len) {
        size_t at = direction == FORWARD ? done : len - block_len - done;
        struct step step = {direction, width, blocks + at, block_len};
        check_step_call(&step, pipe, block_len);
    }
}

/* The message with its padding, and the starting pipe of its size. Returns the length. */
static size_t prepare_message(uint32_t size, const uint8_t *message, size_t len,
                              uint8_t padded[MOST_MESSAGE + 2 * PIPE_64],
                              uint8_t start[PIPE_64])
{
    size_t whole = size <= 256 ? len / PIPE_32 * PIPE_32 : len / PIPE_64 * PIPE_64;
    memcpy(padded, message, whole);
    if (size <= 256) {
        store_pipe_32(start_32(size), start);
        return whole + pad_32(message + whole, len - whole, len, padded + whole);
    }
    store_pipe_64(start_64(size), start);
    return whole + pad_64(message + whole, len - whole, len, padded + whole);
}

/* The blocks of a message lead to a pipe that ends with its digest, and back. */
static void compare_message(uint32_t size, size_t len)
{
    static uint8_t message[MOST_MESSAGE], padded[MOST_MESSAGE + 2 * PIPE_64];
    uint8_t start[PIPE_64], pipe[PIPE_64], digest[64] = {0};
    uint32_t width = size <= 256 ? 32 : 64;
    size_t pipe_len = 2 * (size_t)width, digest_len = size / 8;
    random_fill(message, len);
    size_t padded_len = prepare_message(size, message, len, padded, start);
    memcpy(pipe, start, pipe_len);
    walk(FORWARD, width, padded, padded_len, pipe);
    check(edonr_digest(size, message, len, digest, sizeof digest) == digest_len &&
              memcmp(pipe + pipe_len - digest_len, digest, digest_len) == 0,
          "size %" PRIu32 ", %zu bytes: another digest", size, len);
    walk(BACKWARD, width, padded, padded_len, pipe);
    check(memcmp(pipe, start, pipe_len) == 0,
          "size %" PRIu32 ", %zu bytes: the starting pipe is not found again", size, len);
}

static void compare_messages(uint32_t size)
{
    check_group("messages block by block, size %" PRIu32, size);
    for (size_t len = 0; len <= EVERY_LENGTH; len++)
        compare_message(size, len);
    for (unsigned i = 0; i < LONG_MESSAGES; i++)
        compare_message(size, (size_t)random_below(MOST_MESSAGE + 1));
}

/* The digest that README gives, from the block of document 01 and the pipe of document 001,
   Table 1.4, and the same pipe again; without the reference. */
static void check_abc(void)
{
    static const uint8_t digest[32] = {
        0x56, 0xd7, 0x89, 0xf3, 0xa0, 0x28, 0xbf, 0x3e, 0x86, 0xa8, 0x18,
        0xa4, 0xe7, 0x71, 0xdf, 0x43, 0xf0, 0xeb, 0xde, 0xa3, 0x73, 0x7d,
        0x1f, 0x4d, 0x56, 0x09, 0xed, 0x7d, 0x2f, 0xf3, 0xa5, 0x2d,
    };
    static const uint8_t block[64] = {'a', 'b', 'c', 0x80, [56] = 24};
    uint8_t start[64], pipe[64];
    check_group("the block of abc");
    /* The table counts from 0x40, each word from its highest byte. */
    for (unsigned i = 0; i < sizeof start; i++)
        start[i] = (uint8_t)(0x40 + (i ^ 3));
    memcpy(pipe, start, sizeof pipe);
    check(edonr_block_forward(32, pipe, 64, block, 64) == 64, "forward, another answer");
    check(memcmp(pipe + 32, digest, sizeof digest) == 0, "another digest");
    check(edonr_block_backward(32, pipe, 64, block, 64) == 64, "back, another answer");
    check(memcmp(pipe, start, sizeof start) == 0, "another starting pipe");
}

int main(int argc, char **argv)
{
    static const uint32_t nonsense[] = {0,  1,  16,  31,  33,         63,
                                        65, 96, 128, 256, 0x80000020, 0xFFFFFFFF};
    static const uint32_t sizes[4] = {224, 256, 384, 512};
    check_program("compare_blocks", argc, argv);
    reference_init();
    for (unsigned i = 0; i < 2; i++) {
        compare_random(widths[i]);
        compare_patterns(widths[i]);
        compare_bits(widths[i]);
        compare_undone(widths[i]);
        compare_refusals(widths[i]);
    }
    for (unsigned i = 0; i < sizeof nonsense / sizeof nonsense[0]; i++)
        compare_refusals(nonsense[i]);
    for (unsigned i = 0; i < RANDOM_WIDTHS; i++)
        compare_refusals(widths[i % 2] ^ 1u << random_below(32));
    check_points();
    compare_lists();
    for (unsigned i = 0; i < 4; i++)
        compare_messages(sizes[i]);
    check_abc();
    return check_finish();
}
