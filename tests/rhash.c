/*
 * The reference against EDON-R as the library rhash has it, which somebody else wrote. Its
 * rotation amounts are others and all else is alike, so the reference takes those amounts
 * here. What agrees: squares, constants, starting values, the order of the pipe, the step
 * of a block, padding and what a digest takes. The amounts are confirmed by hmac_values.
 *
 * The library opens 256 and 512 to its callers. 224 and 384 are in its static archive, and
 * are declared here as it defines them.
 */
#include <inttypes.h>
#include <rhash.h>
#include <stddef.h>
#include <string.h>

#include "harness/check.h"
#include "harness/random.h"
#include "reference/digest.h"

enum { EVERY_LENGTH = 2500, RANDOM_MESSAGES = 200, MOST_MESSAGE = 1 << 17 };

/* Room for the library's own context, whose parts its installed header does not name. */
union edonr_ctx {
    max_align_t align;
    uint8_t bytes[4096];
};

void rhash_edonr224_init(union edonr_ctx *context);
void rhash_edonr256_update(union edonr_ctx *context, const uint8_t *message, size_t size);
void rhash_edonr256_final(union edonr_ctx *context, uint8_t *result);
void rhash_edonr384_init(union edonr_ctx *context);
void rhash_edonr512_update(union edonr_ctx *context, const uint8_t *message, size_t size);
void rhash_edonr512_final(union edonr_ctx *context, uint8_t *result);

static uint8_t message[MOST_MESSAGE];

static void digest_224(const uint8_t *bytes, size_t len, uint8_t *out)
{
    union edonr_ctx context;
    rhash_edonr224_init(&context);
    rhash_edonr256_update(&context, bytes, len);
    rhash_edonr256_final(&context, out);
}

static void digest_256(const uint8_t *bytes, size_t len, uint8_t *out)
{
    rhash_msg(RHASH_EDONR256, bytes, len, out);
}

static void digest_384(const uint8_t *bytes, size_t len, uint8_t *out)
{
    union edonr_ctx context;
    rhash_edonr384_init(&context);
    rhash_edonr512_update(&context, bytes, len);
    rhash_edonr512_final(&context, out);
}

static void digest_512(const uint8_t *bytes, size_t len, uint8_t *out)
{
    rhash_msg(RHASH_EDONR512, bytes, len, out);
}

static const struct {
    uint32_t size;
    void (*digest)(const uint8_t *bytes, size_t len, uint8_t *out);
} digests[] = {
    {224, digest_224},
    {256, digest_256},
    {384, digest_384},
    {512, digest_512},
};

static void compare_message(unsigned which, size_t len)
{
    uint8_t got[64] = {0}, want[64] = {0};
    uint32_t size = digests[which].size;
    random_fill(message, len);
    reference_digest_by(&rhash_variant, size, message, len, got, size / 8);
    digests[which].digest(message, len, want);
    check(memcmp(got, want, sizeof got) == 0, "size %" PRIu32 ", message of %zu bytes",
          size, len);
}

int main(int argc, char **argv)
{
    check_program("rhash", argc, argv);
    rhash_library_init();
    for (unsigned i = 0; i < sizeof digests / sizeof digests[0]; i++) {
        check_group("the reference and rhash, size %" PRIu32, digests[i].size);
        for (size_t len = 0; len <= EVERY_LENGTH; len++)
            compare_message(i, len);
        for (unsigned n = 0; n < RANDOM_MESSAGES; n++)
            compare_message(i, (size_t)random_bits(17));
    }
    return check_finish();
}
