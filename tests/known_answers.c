/*
 * The probe's table of known answers against the reference: every entry is worked out
 * again, so that nobody has to believe its bytes. And that its vectors and its sheets are
 * what the table says of them.
 */
#include <inttypes.h>
#include <stdio.h>
#include <string.h>

#include "../probe/known_table.h"
#include "harness/check.h"
#include "harness/rng.h"
#include "harness/sheet_maker.h"
#include "reference/digest.h"
#include "reference/division.h"
#include "reference/product.h"
#include "reference/sheet.h"

/* A digest is the same however its message is cut. */
static uint64_t work_out(const struct known *known, uint8_t *out, size_t out_len)
{
    struct known_bytes first = known_bytes(known->first);
    struct known_bytes second = known_bytes(known->second);
    uint32_t parameter = known->parameter;
    switch (known->call) {
    case KNOWN_PRODUCT:
        return reference_product(parameter, first.at, first.len, second.at, second.len, out,
                                 out_len);
    case KNOWN_LEFT_DIVISION:
        return reference_left_division(parameter, first.at, first.len, second.at,
                                       second.len, out, out_len);
    case KNOWN_RIGHT_DIVISION:
        return reference_right_division(parameter, first.at, first.len, second.at,
                                        second.len, out, out_len);
    case KNOWN_DIGEST:
    case KNOWN_PIECES:
        return reference_digest(parameter, first.at, first.len, out, out_len);
    case KNOWN_FORWARD:
        memcpy(out, first.at, first.len);
        return reference_run_forward(parameter, out, first.len, second.at, second.len);
    case KNOWN_BACKWARD:
        memcpy(out, first.at, first.len);
        return reference_run_backward(parameter, out, first.len, second.at, second.len);
    }
    return 0;
}

static void write_text(const uint8_t *bytes, size_t len, char *text)
{
    for (size_t i = 0; i < len; i++)
        snprintf(text + 2 * i, 3, "%02x", bytes[i]);
}

/* A result is compared as it is written, so that a wrong digit or a missing one counts. */
static void check_entry(const struct known *known, size_t result_len)
{
    uint8_t out[KNOWN_MOST_BYTES] = {0};
    char text[2 * KNOWN_MOST_BYTES + 1];
    uint64_t answer = work_out(known, out, result_len);
    write_text(out, result_len, text);
    check(answer == known->answer && strcmp(text, known->result) == 0,
          "%s: the reference answers %" PRIu64 " and gives %s", known->name, answer, text);
}

static size_t result_len(const struct known *known)
{
    switch (known->call) {
    case KNOWN_DIGEST:
    case KNOWN_PIECES: return known->parameter / 8;
    case KNOWN_FORWARD:
    case KNOWN_BACKWARD: return EDONR_PLACES * (size_t)known->parameter;
    default: return known->parameter;
    }
}

static void check_table(void)
{
    check_group("the probe's table, worked out by the reference");
    for (unsigned i = 0; i < KNOWN_ANSWERS; i++)
        check_entry(&known_table[i], result_len(&known_table[i]));
}

static bool has_alike_words(const struct known_bytes *bytes, size_t word_len)
{
    for (size_t i = 0; i < bytes->len; i += word_len)
        for (size_t j = 0; j < i; j += word_len)
            if (memcmp(bytes->at + i, bytes->at + j, word_len) == 0)
                return true;
    return false;
}

/* Whether some words have their highest bit set and some have not. */
static bool has_both_signs(const uint8_t *vector, size_t word_len)
{
    unsigned set = 0;
    for (unsigned i = 0; i < 8; i++)
        set += vector[(i + 1) * word_len - 1] >> 7;
    return set > 0 && set < 8;
}

/* The vectors of a run; product and digest take theirs from the same bytes. */
static void check_vectors(const struct known *known)
{
    struct known_bytes vectors = known_bytes(known->first), numbers;
    size_t width = known->parameter, word_len = width / 8;
    struct rng rng = {0};
    rng_fill(&rng, numbers.at, vectors.len);
    check(memcmp(vectors.at, numbers.at, vectors.len) == 0, "%s: splitmix64 from 0",
          known->name);
    check(!has_alike_words(&vectors, word_len), "%s: words are alike", known->name);
    for (size_t at = 0; at < vectors.len; at += width)
        check(has_both_signs(vectors.at + at, word_len),
              "%s: highest bits from byte %zu on", known->name, at);
}

/* Every kind of command, with K from the numbers behind those of the vectors. */
static void check_sheet(const struct known *known)
{
    struct known_bytes sheet = known_bytes(known->second);
    uint8_t numbers[KNOWN_MOST_BYTES + 2 * 64];
    size_t width = known->parameter, len, k = KNOWN_MOST_BYTES;
    unsigned kinds = 0;
    struct rng rng = {0};
    rng_fill(&rng, numbers, sizeof numbers);
    for (size_t at = 0; at < sheet.len; at += len) {
        len = command_len(known->parameter, sheet.at[at]);
        kinds |= 1u << sheet.at[at];
        if (len > 3) {
            check(memcmp(sheet.at + at + 2, numbers + k, width) == 0,
                  "%s: K at byte %zu of the sheet", known->name, at + 2);
            k += width;
        }
    }
    check(kinds == 0x1FE, "%s: kinds %x", known->name, kinds);
}

/* No vector is left alone. */
static void check_changes(const struct known *known)
{
    struct known_bytes before = known_bytes(known->first);
    struct known_bytes after = known_bytes(known->result);
    size_t width = known->parameter;
    for (size_t at = 0; at < before.len; at += width)
        check(memcmp(before.at + at, after.at + at, width) != 0,
              "%s: the vector at byte %zu is left alone", known->name, at);
}

int main(int argc, char **argv)
{
    check_program("known_answers", argc, argv);
    reference_init();
    check_table();
    check_group("the vectors and sheets of its runs");
    for (unsigned i = 0; i < KNOWN_ANSWERS; i++) {
        if (known_table[i].call == KNOWN_FORWARD) {
            check_vectors(&known_table[i]);
            check_sheet(&known_table[i]);
            check_changes(&known_table[i]);
        }
    }
    return check_finish();
}
