/*
 * Multiplies two vectors and finds each factor again by a division.
 */
#include <stdio.h>
#include <string.h>

#include "edonr.h"

static void print_vector(const char *name, const uint8_t vector[32])
{
    printf("%-4s", name);
    for (int i = 0; i < 32; i++)
        printf("%02x%s", vector[i], i % 4 == 3 && i < 31 ? " " : "");
    printf("\n");
}

int main(void)
{
    uint8_t x[32], y[32], z[32], left[32], right[32];
    for (int i = 0; i < 32; i++) {
        x[i] = (uint8_t)i;
        y[i] = (uint8_t)(255 - i);
    }

    if (edonr_product(32, x, 32, y, 32, z, 32) != 32 ||
        edonr_left_division(32, x, 32, z, 32, right, 32) != 32 ||
        edonr_right_division(32, z, 32, y, 32, left, 32) != 32) {
        printf("a call was refused\n");
        return 1;
    }

    print_vector("x", x);
    print_vector("y", y);
    print_vector("x*y", z);
    print_vector("x\\z", right);
    print_vector("z/y", left);

    if (memcmp(right, y, 32) != 0 || memcmp(left, x, 32) != 0) {
        printf("a division did not come back\n");
        return 1;
    }
    printf("both divisions came back: x\\(x*y) = y and (x*y)/y = x\n");
    return 0;
}
