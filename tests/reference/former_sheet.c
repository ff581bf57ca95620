#include "sheet.h"

#define PLACES 4
#include "sheet_places.h"

uint64_t reference_former_forward(uint32_t width, uint8_t *vectors, size_t vectors_len,
                                  const uint8_t *sheet, size_t sheet_len)
{
    return run(FORWARD, width, vectors, vectors_len, sheet, sheet_len);
}

uint64_t reference_former_backward(uint32_t width, uint8_t *vectors, size_t vectors_len,
                                   const uint8_t *sheet, size_t sheet_len)
{
    return run(BACKWARD, width, vectors, vectors_len, sheet, sheet_len);
}
