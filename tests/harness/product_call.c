#include "product_call.h"

#include <inttypes.h>
#include <string.h>

#include "../reference/answer.h"
#include "../reference/product.h"
#include "check.h"
#include "edonr.h"
#include "lent.h"
#include "random.h"

const struct operation operations[OPERATIONS] = {
    [PRODUCT] = {"product", edonr_product, reference_product},
    [LEFT_DIVISION] = {"left division", edonr_left_division, reference_left_division},
    [RIGHT_DIVISION] = {"right division", edonr_right_division, reference_right_division},
};

static struct lent first, second, out;

static void place_buffers(const struct product_call *call, const uint8_t *out_before)
{
    if (out.area == NULL) {
        first = lent_area(PRODUCT_CALL_CAPACITY, 1);
        second = lent_area(PRODUCT_CALL_CAPACITY, 1);
        out = lent_area(PRODUCT_CALL_CAPACITY, 1);
    }
    lent_place(&first, call->first, call->first_len);
    lent_place(&second, call->second, call->second_len);
    lent_place(&out, out_before, call->out_len);
}

uint64_t check_product_call(const struct product_call *call)
{
    uint8_t before[PRODUCT_CALL_CAPACITY], after[PRODUCT_CALL_CAPACITY];
    random_fill(before, call->out_len);
    memcpy(after, before, call->out_len);
    place_buffers(call, before);

    uint64_t want =
        call->operation->reference(call->width, call->first, call->first_len, call->second,
                                   call->second_len, after, call->out_len);
    uint64_t got =
        call->operation->archive(call->width, first.bytes, call->first_len, second.bytes,
                                 call->second_len, out.bytes, call->out_len);

    size_t written = is_refusal(want) ? 0 : (size_t)want;
    bool frame = memcmp(after + written, before + written, call->out_len - written) == 0;
    check(got == want && frame && lent_holds(&first, call->first) &&
              lent_holds(&second, call->second) && lent_holds(&out, after),
          "%s, width %" PRIu32 ", operands of %zu and %zu bytes, output of %zu: answered "
          "%" PRIx64 ", expected %" PRIx64,
          call->operation->name, call->width, call->first_len, call->second_len,
          call->out_len, got, want);
    return got;
}
