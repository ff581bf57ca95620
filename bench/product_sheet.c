#include "product_sheet.h"

size_t make_products_over(size_t places, uint8_t *sheet, size_t commands)
{
    for (size_t i = 0; i < commands; i++) {
        uint8_t *command = sheet + PRODUCT_BYTES * i;
        size_t d = i % places, round = i / places;
        command[0] = (uint8_t)(1 + i % 2);
        command[1] = (uint8_t)d;
        command[2] = (uint8_t)((d + 1 + round % (places - 1)) % places);
    }
    return PRODUCT_BYTES * commands;
}
