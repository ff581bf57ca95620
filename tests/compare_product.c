/*
 * Product and divisions of the archive against the reference, bit for bit.
 */
#include <inttypes.h>
#include <stdbool.h>
#include <string.h>

#include "edonr.h"
#include "harness/check.h"
#include "harness/product_call.h"
#include "harness/random.h"
#include "reference/division.h"

enum {
    RANDOM_PAIRS = 100000,
    SPARSE_PAIRS = 20000,
    EQUATION_PAIRS = 10000,
    RANDOM_WIDTHS = 10
};

static const uint32_t widths[2] = {32, 64};

static void check_all_operations(uint32_t width, const uint8_t *first,
                                 const uint8_t *second, size_t out_len)
{
    for (unsigned i = 0; i < OPERATIONS; i++) {
        struct product_call call = {&operations[i], width, first,  width,
                                    second,         width, out_len};
        check_product_call(&call);
    }
}

static void compare_random(uint32_t width)
{
    check_group("random operands, width %" PRIu32, width);
    for (unsigned i = 0; i < RANDOM_PAIRS; i++) {
        uint8_t first[64], second[64];
        random_fill(first, width);
        random_fill(second, width);
        check_all_operations(width, first, second, width + i % 9);
    }
}

/* Zero to three bits. */
static void sparse_vector(uint32_t width, uint8_t vector[64])
{
    memset(vector, 0, 64);
    for (uint64_t bits = random_below(4); bits > 0; bits--) {
        uint64_t bit = random_below(8 * width);
        vector[bit / 8] ^= (uint8_t)(1u << bit % 8);
    }
}

/* Sums of few bits seldom carry, so these operands show places that random ones blur. */
static void compare_sparse(uint32_t width)
{
    check_group("operands of few bits, width %" PRIu32, width);
    for (unsigned i = 0; i < SPARSE_PAIRS; i++) {
        uint8_t first[64], second[64];
        sparse_vector(width, first);
        sparse_vector(width, second);
        check_all_operations(width, first, second, width);
    }
}

enum { PATTERNS = 12 };

/* Byte k of a word, counted from its lowest, in word i of pattern p. */
static uint8_t pattern_byte(unsigned p, unsigned i, unsigned k, unsigned highest)
{
    switch (p) {
    case 0: return 0x00;
    case 1: return 0xFF;
    case 2: return 0x80;
    case 3: return k == highest ? 0x80 : 0x00;
    case 4: return k == highest ? 0x7F : 0xFF;
    case 5: return 0x55;
    case 6: return 0xAA;
    case 7: return i % 2 == 0 ? 0x55 : 0xAA;
    case 8: return i % 2 == 0 ? 0x00 : 0xFF;
    case 9: return k == 0 ? 0x01 : 0x00;
    case 10: return k == 0 ? 0xFE : 0xFF;
    default: return k == 0 ? (uint8_t)(i + 1) : 0x00;
    }
}

static unsigned extreme_count(uint32_t width)
{
    return PATTERNS + 16 * width;
}

/* Extreme vectors by number: the patterns, then each single bit, then all bits but one. */
static void extreme(unsigned number, uint32_t width, uint8_t *vector)
{
    unsigned word_len = width / 8;
    if (number < PATTERNS) {
        for (unsigned at = 0; at < width; at++)
            vector[at] = pattern_byte(number, at / word_len, at % word_len, word_len - 1);
        return;
    }
    unsigned bit = (number - PATTERNS) % (8 * width);
    uint8_t rest = number - PATTERNS < 8 * width ? 0x00 : 0xFF;
    memset(vector, rest, width);
    vector[bit / 8] ^= (uint8_t)(1u << bit % 8);
}

static void compare_extreme(uint32_t width)
{
    check_group("extreme operands, width %" PRIu32, width);
    for (unsigned i = 0; i < extreme_count(width); i++) {
        uint8_t first[64], second[64];
        extreme(i, width, first);
        check_all_operations(width, first, first, width);
        for (unsigned j = 0; j < PATTERNS; j++) {
            extreme(j, width, second);
            check_all_operations(width, first, second, width);
            check_all_operations(width, second, first, width);
        }
    }
}

typedef operation_call *const operation_pair[2];

/* first op second, by the archive (0) or by the reference (1). */
static void apply(unsigned by, unsigned operation, uint32_t width, const uint8_t *first,
                  const uint8_t *second, uint8_t *out)
{
    operation_pair calls = {operations[operation].archive, operations[operation].reference};
    calls[by](width, first, width, second, width, out, width);
}

static void check_equal(uint32_t width, const uint8_t *got, const uint8_t *want,
                        const char *equation)
{
    check(memcmp(got, want, width) == 0, "%s", equation);
}

/* The four equations that make a division a division, each between the two
   implementations: one side works out, the other undoes. */
static void check_equations(uint32_t width, const uint8_t *a, const uint8_t *b)
{
    for (unsigned by = 0; by < 2; by++) {
        uint8_t solved[64], back[64];
        apply(by, LEFT_DIVISION, width, a, b, solved);
        apply(1 - by, PRODUCT, width, a, solved, back);
        check_equal(width, back, b, "a*(a\\b) = b");
        apply(by, RIGHT_DIVISION, width, b, a, solved);
        apply(1 - by, PRODUCT, width, solved, a, back);
        check_equal(width, back, b, "(b/a)*a = b");
        apply(by, PRODUCT, width, a, b, solved);
        apply(1 - by, LEFT_DIVISION, width, a, solved, back);
        check_equal(width, back, b, "a\\(a*b) = b");
        apply(1 - by, RIGHT_DIVISION, width, solved, b, back);
        check_equal(width, back, a, "(a*b)/b = a");
    }
}

static void solve_equations(uint32_t width)
{
    check_group("quasigroup equations, width %" PRIu32, width);
    uint8_t a[64], b[64];
    for (unsigned i = 0; i < EQUATION_PAIRS; i++) {
        random_fill(a, width);
        random_fill(b, width);
        check_equations(width, a, b);
    }
    for (unsigned i = 0; i < extreme_count(width); i++) {
        extreme(i, width, a);
        extreme(i % PATTERNS, width, b);
        check_equations(width, a, b);
        check_equations(width, b, a);
    }
}

/* Every width with every pair of operand lengths and every output length. */
static void compare_refusals(uint32_t width)
{
    static const size_t lengths[] = {0, 1, 31, 32, 33, 63, 64, 65, 128};
    enum { LENGTHS = sizeof lengths / sizeof lengths[0] };
    uint8_t first[128], second[128];
    check_group("lengths at width %" PRIu32, width);
    random_fill(first, sizeof first);
    random_fill(second, sizeof second);
    size_t most_out = (width == 32 ? 32 : 64) + 8;
    for (unsigned n = 0; n < OPERATIONS * LENGTHS * LENGTHS; n++) {
        struct product_call call = {&operations[n % OPERATIONS],
                                    width,
                                    first,
                                    lengths[n / OPERATIONS % LENGTHS],
                                    second,
                                    lengths[n / OPERATIONS / LENGTHS],
                                    0};
        for (call.out_len = 0; call.out_len <= most_out; call.out_len++)
            check_product_call(&call);
    }
}

struct point {
    uint32_t width;
    size_t first_len, second_len, out_len;
    uint64_t answer;
};

#define OVER ((uint64_t)1 << 32)

/* The order of refusals as numbers, without the reference. */
static const struct point points[] = {
    {0, 0, 0, 0, 5ull << 32},
    {33, 32, 32, 32, 5ull << 32},
    {31, 31, 31, 31, 5ull << 32},
    {128, 128, 128, 128, 5ull << 32},
    {32, 31, 32, 0, 6ull << 32},
    {32, 32, 33, 32, 6ull << 32},
    {32, 64, 64, 64, 6ull << 32},
    {64, 32, 32, 64, 6ull << 32},
    {64, 64, 0, 64, 6ull << 32},
    {32, OVER + 32, 32, 32, 6ull << 32},
    {32, 32, OVER + 32, 32, 6ull << 32},
    {64, OVER + 64, OVER + 64, 64, 6ull << 32},
    {64, 64, UINT64_MAX, 0, 6ull << 32},
    {33, UINT64_MAX, UINT64_MAX, 0, 5ull << 32},
    {32, 32, 32, 31, 4ull << 32},
    {64, 64, 64, 63, 4ull << 32},
    {64, 64, 64, 0, 4ull << 32},
    {32, 32, 32, 32, 32},
    {32, 32, 32, 100, 32},
    {64, 64, 64, 64, 64},
    {64, 64, 64, 100, 64},
};

static void check_points(void)
{
    static const uint8_t first[128], second[128];
    check_group("answers as numbers");
    for (unsigned n = 0; n < OPERATIONS * sizeof points / sizeof points[0]; n++) {
        const struct point *p = &points[n / OPERATIONS];
        struct product_call call = {&operations[n % OPERATIONS],
                                    p->width,
                                    first,
                                    p->first_len,
                                    second,
                                    p->second_len,
                                    p->out_len};
        uint64_t got = check_product_call(&call);
        check(got == p->answer, "%s, point %u: answered %" PRIx64, call.operation->name,
              n / OPERATIONS, got);
    }
}

static void check_header(void)
{
    check_group("the header");
    check(edonr_refused(EDONR_REFUSED_OUTPUT, 0) == 4ull << 32, "the header's number 4");
    check(edonr_refused(EDONR_REFUSED_WIDTH, 0) == 5ull << 32, "the header's number 5");
    check(edonr_refused(EDONR_REFUSED_LENGTH, 7) == (6ull << 32) + 7, "the header's 6");
    check(edonr_refusal((6ull << 32) + 7) == 6, "a refusal's number");
    check(edonr_offset((6ull << 32) + 7) == 7, "a refusal's offset");
    check(edonr_refusal(64) == 0 && edonr_offset(64) == 64, "a success taken apart");
}

int main(int argc, char **argv)
{
    static const uint32_t nonsense[] = {0, 1, 31, 33, 63, 65, 128, 0xFFFFFFFF};
    check_program("compare_product", argc, argv);
    reference_init();
    for (unsigned i = 0; i < 2; i++) {
        compare_random(widths[i]);
        compare_sparse(widths[i]);
        compare_extreme(widths[i]);
        solve_equations(widths[i]);
        compare_refusals(widths[i]);
    }
    for (unsigned i = 0; i < sizeof nonsense / sizeof nonsense[0]; i++)
        compare_refusals(nonsense[i]);
    for (unsigned i = 0; i < RANDOM_WIDTHS; i++)
        compare_refusals(widths[i % 2] ^ 1u << random_below(32));
    check_points();
    check_header();
    return check_finish();
}
