/*
 * What the probe makes from a seed: vectors for all eight places, as its header says, and a
 * sheet that takes operands from all of them and changes each. What a run of the sheet
 * answers and leaves is worked out by the reference.
 */
#include <inttypes.h>
#include <string.h>

#include "../probe/load.h"
#include "harness/check.h"
#include "harness/rng.h"
#include "harness/sheet_maker.h"
#include "reference/division.h"
#include "reference/sheet.h"

enum { PLACES = 8, SEEDS = 500 };

/* How often a place stands as d, and as s. */
struct uses {
    unsigned d[PLACES], s[PLACES];
};

static struct uses count_uses(const struct load *load)
{
    struct uses uses = {{0}, {0}};
    size_t len;
    for (size_t at = 0; at < load->sheet_len; at += len) {
        const uint8_t *command = load->sheet + at;
        len = command_len(load->width, command[0]);
        uses.d[command[1] % PLACES]++;
        if (len == 3)
            uses.s[command[2] % PLACES]++;
    }
    return uses;
}

static void check_vectors(const struct load *load)
{
    uint8_t numbers[PLACES * 64];
    struct rng rng = {load->seed};
    size_t len = PLACES * (size_t)load->width;
    rng_fill(&rng, numbers, len);
    check(load->vectors_len == len && memcmp(load->vectors, numbers, len) == 0,
          "seed %" PRIu64 ": the vectors", load->seed);
}

static void check_sheet(const struct load *load)
{
    uint8_t after[PLACES * 64];
    struct uses uses = count_uses(load);
    size_t width = load->width;
    memcpy(after, load->vectors, PLACES * width);
    uint64_t answer = reference_run_forward(load->width, after, PLACES * width, load->sheet,
                                            load->sheet_len);
    check(answer == load->units, "seed %" PRIu64 ": the sheet answers %" PRIx64, load->seed,
          answer);
    for (unsigned i = 0; i < PLACES; i++) {
        check(uses.d[i] > 0 && uses.s[i] > 0,
              "seed %" PRIu64 ": V%u is d in %u commands and s in %u", load->seed, i,
              uses.d[i], uses.s[i]);
        check(memcmp(after + i * width, load->vectors + i * width, width) != 0,
              "seed %" PRIu64 ": V%u is left alone", load->seed, i);
    }
}

static void check_seeds(uint32_t width)
{
    static struct load load;
    check_group("what seeds give, width %" PRIu32, width);
    for (uint64_t seed = 0; seed < SEEDS; seed++) {
        struct options options = {.width = width, .seed = seed, .threads = 1};
        bool made = load_prepare(&options, &load);
        check(made, "seed %" PRIu64 ": no load", seed);
        if (made) {
            check_vectors(&load);
            check_sheet(&load);
        }
    }
}

int main(int argc, char **argv)
{
    check_program("probe_load", argc, argv);
    reference_init();
    check_seeds(32);
    check_seeds(64);
    return check_finish();
}
