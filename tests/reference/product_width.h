/*
 * Included by product.c, once with WIDTH 32 and once with WIDTH 64.
 */

#define DEFINE_ON_BYTES(name, operation)                                                   \
    static void AT_WIDTH(name)(const uint8_t *first, const uint8_t *second, uint8_t *out)  \
    {                                                                                      \
        WORD u[8], v[8], result[8];                                                        \
        AT_WIDTH(load_vector)(first, u);                                                   \
        AT_WIDTH(load_vector)(second, v);                                                  \
        AT_WIDTH(operation)(u, v, result);                                                 \
        AT_WIDTH(store_vector)(result, out);                                               \
    }

DEFINE_ON_BYTES(multiply_bytes, multiply)
DEFINE_ON_BYTES(divide_left_bytes, reference_divide_left)
DEFINE_ON_BYTES(divide_right_bytes, reference_divide_right)

#undef DEFINE_ON_BYTES
