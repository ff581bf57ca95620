#include "product.h"

#include "answer.h"
#include "division.h"
#include "vector.h"

static uint64_t check_operands(uint32_t width, size_t first_len, size_t second_len,
                               size_t out_len)
{
    if (width != 32 && width != 64)
        return refuse(BAD_WIDTH, 0);
    if (first_len != width || second_len != width)
        return refuse(BAD_LENGTH, 0);
    if (out_len < width)
        return refuse(OUTPUT_TOO_SHORT, 0);
    return width;
}

#define WIDTH 32
#include "product_width.h"
#undef WIDTH

#define WIDTH 64
#include "product_width.h"
#undef WIDTH

uint64_t reference_product(uint32_t width, const uint8_t *x, size_t x_len, const uint8_t *y,
                           size_t y_len, uint8_t *out, size_t out_len)
{
    uint64_t answer = check_operands(width, x_len, y_len, out_len);
    if (answer == 32)
        multiply_bytes_32(x, y, out);
    if (answer == 64)
        multiply_bytes_64(x, y, out);
    return answer;
}

uint64_t reference_left_division(uint32_t width, const uint8_t *a, size_t a_len,
                                 const uint8_t *b, size_t b_len, uint8_t *out,
                                 size_t out_len)
{
    uint64_t answer = check_operands(width, a_len, b_len, out_len);
    if (answer == 32)
        divide_left_bytes_32(a, b, out);
    if (answer == 64)
        divide_left_bytes_64(a, b, out);
    return answer;
}

uint64_t reference_right_division(uint32_t width, const uint8_t *b, size_t b_len,
                                  const uint8_t *a, size_t a_len, uint8_t *out,
                                  size_t out_len)
{
    uint64_t answer = check_operands(width, b_len, a_len, out_len);
    if (answer == 32)
        divide_right_bytes_32(b, a, out);
    if (answer == 64)
        divide_right_bytes_64(b, a, out);
    return answer;
}
