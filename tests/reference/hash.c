#include "hash.h"

#include <stdbool.h>

#include "answer.h"
#include "bits.h"
#include "block.h"

static bool is_size_32(uint64_t size)
{
    return size == 224 || size == 256;
}

static bool is_size_64(uint64_t size)
{
    return size == 384 || size == 512;
}

#define WIDTH 32
#include "hash_width.h"
#undef WIDTH

#define WIDTH 64
#include "hash_width.h"
#undef WIDTH
