#include "hash_maker.h"

#include <string.h>

#include "../reference/answer.h"
#include "random.h"

/* Around totals where something changes: a byte of the length field, the limit, a sign. */
static uint64_t edge_total(void)
{
    static const uint64_t edges[] = {
        0,
        (uint64_t)1 << 29,
        (uint64_t)1 << 32,
        (uint64_t)3 << 32,
        MOST_BYTES_FED,
        (uint64_t)1 << 63,
    };
    uint64_t edge = edges[random_below(sizeof edges / sizeof edges[0])];
    return edge + random_below(600) - 300;
}

static uint64_t random_total(void)
{
    switch (random_below(4)) {
    case 0: return random_bits(61);
    case 1: return random_word() & MOST_BYTES_FED;
    case 2: return edge_total();
    default: return random_bits(64);
    }
}

static uint64_t random_size(enum kind kind)
{
    uint64_t sound = kind_sizes[kind][random_below(2)];
    switch (random_below(8)) {
    case 0: return random_near(sound);
    case 1: return kind_sizes[1 - kind][random_below(2)];
    case 2: return random_bits(64);
    default: return sound;
    }
}

void make_up_hash(enum kind kind, union hash *hash)
{
    random_fill((uint8_t *)hash, sizeof *hash);
    if (random_below(8) == 0)
        memset(hash, random_below(2) == 0 ? 0x00 : 0xFF, sizeof *hash);
    uint64_t size = random_size(kind);
    set_hash(kind, hash, size, random_total());
}
