#include "load.h"

#include <errno.h>
#include <inttypes.h>
#include <stdio.h>
#include <string.h>

#include "edonr.h"
#include "refusal.h"

enum { KINDS = 8, LAST_OF_TWO_PLACES = 5, FLIP = 6 };

static uint64_t splitmix64(uint64_t *state)
{
    *state += 0x9E3779B97F4A7C15u;
    uint64_t z = *state;
    z = (z ^ z >> 30) * 0xBF58476D1CE4E5B9u;
    z = (z ^ z >> 27) * 0x94D049BB133111EBu;
    return z ^ z >> 31;
}

/* Vectors and K: whole numbers of eight bytes each. */
static void fill(uint64_t *state, uint8_t *bytes, size_t len)
{
    for (size_t i = 0; i < len; i += 8) {
        uint64_t number = splitmix64(state);
        for (unsigned j = 0; j < 8; j++)
            bytes[i + j] = (uint8_t)(number >> 8 * j);
    }
}

static size_t command_len(uint32_t width, uint8_t kind)
{
    if (kind <= LAST_OF_TWO_PLACES)
        return 3;
    return kind == FLIP ? 2 : 2 + (size_t)width;
}

static void make_command(uint64_t *state, uint32_t width, uint8_t kind, uint8_t *command)
{
    command[0] = kind;
    command[1] = (uint8_t)(splitmix64(state) % EDONR_PLACES);
    if (kind <= LAST_OF_TWO_PLACES)
        command[2] = (uint8_t)((command[1] + 1 + splitmix64(state) % (EDONR_PLACES - 1)) %
                               EDONR_PLACES);
    else if (kind != FLIP)
        fill(state, command + 2, width);
}

static void make_sheet(uint64_t *state, struct load *load)
{
    load->sheet_len = 0;
    for (;;) {
        uint8_t kind = (uint8_t)(1 + splitmix64(state) % KINDS);
        size_t len = command_len(load->width, kind);
        if (len > MOST_SHEET_BYTES - load->sheet_len)
            return;
        make_command(state, load->width, kind, load->sheet + load->sheet_len);
        load->sheet_len += len;
    }
}

static void make_load(const struct options *options, unsigned thread, struct load *load)
{
    load->width = options->width;
    load->seed = options->seed + thread;
    load->vectors_len = EDONR_PLACES * (size_t)options->width;
    uint64_t state = load->seed;
    fill(&state, load->vectors, load->vectors_len);
    make_sheet(&state, load);
}

/* At most room bytes are read; fewer if the file ends before. */
static bool read_file(const char *name, uint8_t *bytes, size_t room, size_t *len)
{
    FILE *file = fopen(name, "rb");
    if (file == NULL) {
        fprintf(stderr, "edonr-probe: cannot open %s: %s\n", name, strerror(errno));
        return false;
    }
    *len = fread(bytes, 1, room, file);
    bool failed = ferror(file) != 0;
    if (failed)
        fprintf(stderr, "edonr-probe: cannot read %s: %s\n", name, strerror(errno));
    fclose(file);
    return !failed;
}

static bool read_vectors(const char *name, struct load *load)
{
    uint8_t bytes[MOST_VECTORS_BYTES + 1];
    size_t len;
    if (!read_file(name, bytes, load->vectors_len + 1, &len))
        return false;
    if (len != load->vectors_len) {
        fprintf(stderr, "edonr-probe: %s has %s than the %zu bytes of %d vectors of width %"
                        PRIu32 "\n",
                name, len < load->vectors_len ? "fewer" : "more", load->vectors_len,
                EDONR_PLACES, load->width);
        return false;
    }
    memcpy(load->vectors, bytes, len);
    return true;
}

static bool read_sheet(const char *name, struct load *load)
{
    return read_file(name, load->sheet, sizeof load->sheet, &load->sheet_len);
}

static void share_files(const struct options *options, const struct load *from,
                        struct load *to)
{
    if (options->vectors != NULL)
        memcpy(to->vectors, from->vectors, from->vectors_len);
    if (options->sheet != NULL) {
        memcpy(to->sheet, from->sheet, from->sheet_len);
        to->sheet_len = from->sheet_len;
    }
}

static void tell_of_sheet(const struct options *options, const struct load *load,
                          const char *text)
{
    if (options->sheet != NULL)
        fprintf(stderr, "edonr-probe: sheet %s: %s\n", options->sheet, text);
    else
        fprintf(stderr, "edonr-probe: sheet of seed %" PRIu64 ": %s\n", load->seed, text);
}

/* By the opcodes of an accepted sheet: no call tells it. */
static uint64_t count_commands(const struct load *load)
{
    uint64_t count = 0;
    for (size_t at = 0; at < load->sheet_len;
         at += command_len(load->width, load->sheet[at]))
        count++;
    return count;
}

/* A run over a copy of the vectors tells what the sheet's runs have to answer. */
static bool try_sheet(const struct options *options, struct load *load)
{
    uint8_t vectors[MOST_VECTORS_BYTES];
    memcpy(vectors, load->vectors, load->vectors_len);
    load->units = edonr_run_forward(load->width, vectors, load->vectors_len, load->sheet,
                                    load->sheet_len);
    if (edonr_refusal(load->units) != 0) {
        char text[ANSWER_TEXT];
        answer_text(load->units, text, sizeof text);
        tell_of_sheet(options, load, text);
        return false;
    }
    load->commands = count_commands(load);
    return true;
}

bool load_prepare(const struct options *options, struct load *loads)
{
    for (unsigned i = 0; i < options->threads; i++)
        make_load(options, i, &loads[i]);
    if (options->vectors != NULL && !read_vectors(options->vectors, &loads[0]))
        return false;
    if (options->sheet != NULL && !read_sheet(options->sheet, &loads[0]))
        return false;
    for (unsigned i = 1; i < options->threads; i++)
        share_files(options, &loads[0], &loads[i]);
    for (unsigned i = 0; i < options->threads; i++) {
        if (!try_sheet(options, &loads[i]))
            return false;
        /* All threads have the sheet of a file, and one warning is enough. */
        if (loads[i].units == 0 && (i == 0 || options->sheet == NULL))
            tell_of_sheet(options, &loads[i], "warning: 0 units, so it loads nothing");
    }
    return true;
}
