/*
 * One call of product or division, made to the archive and to the reference.
 */
#ifndef HARNESS_PRODUCT_CALL_H
#define HARNESS_PRODUCT_CALL_H

#include <stddef.h>
#include <stdint.h>

typedef uint64_t operation_call(uint32_t width, const uint8_t *first, size_t first_len,
                                const uint8_t *second, size_t second_len, uint8_t *out,
                                size_t out_len);

struct operation {
    const char *name;
    operation_call *archive;
    operation_call *reference;
};

enum { PRODUCT, LEFT_DIVISION, RIGHT_DIVISION, OPERATIONS };

extern const struct operation operations[OPERATIONS];

/* The longest operand that is lent and the longest output. */
enum { PRODUCT_CALL_CAPACITY = 512 };

/* A longer operand is only claimed; no call accepts it. */
struct product_call {
    const struct operation *operation;
    uint32_t width;
    const uint8_t *first;
    size_t first_len;
    const uint8_t *second;
    size_t second_len;
    size_t out_len;
};

/* Counts one comparison: it passes if both give the same answer, all buffers hold the same
   bytes afterwards, operands and guards stand, and so does all of the output that the
   answer does not claim. Returns the archive's answer. */
uint64_t check_product_call(const struct product_call *call);

#endif
