/*
 * hmac_values [file]: the HMAC values that document 001 prints in section 3.16, made by
 * FIPS 198-1 from the archive's digest, and from the reference with either half of the
 * pipe as C0 and with the rotation amounts of rhash. The file's head gives its form.
 */
#include <ctype.h>
#include <stdbool.h>
#include <stdio.h>
#include <stdlib.h>
#include <string.h>

#include "edonr.h"
#include "harness/check.h"
#include "harness/vector_file.h"
#include "reference/digest.h"
#include "reference/rows.h"

enum { VECTORS = 16, MOST_KEY = 256, MOST_MESSAGE = 256, MOST_MAC = 64 };

typedef uint64_t digest_call(uint32_t size, const uint8_t *message, size_t message_len,
                             uint8_t *out, size_t out_len);

struct vector {
    uint32_t size;
    size_t printed_key_len, printed_message_len;
    uint8_t key[MOST_KEY], message[MOST_MESSAGE], mac[MOST_MAC];
    uint8_t shown[MOST_MAC]; /* the bits of mac that are compared */
    size_t key_len, message_len, mac_len;
};

static void add_key(struct vector *v, const char *text)
{
    for (; *text != '\0'; text += 2) {
        if (v->key_len == MOST_KEY)
            vector_file_stop("a key is too long");
        v->key[v->key_len++] = (uint8_t)(vector_file_digit(text[0]) << 4 | vector_file_digit(text[1]));
    }
}

static void add_message(struct vector *v, const char *text)
{
    if (strlen(text) > MOST_MESSAGE - v->message_len)
        vector_file_stop("a message is too long");
    memcpy(v->message + v->message_len, text, strlen(text));
    v->message_len += strlen(text);
}

static void add_mac(struct vector *v, const char *text)
{
    while (*text != '\0') {
        if (isspace((unsigned char)*text)) {
            text++;
            continue;
        }
        if (v->mac_len == MOST_MAC)
            vector_file_stop("a mac is too long");
        for (unsigned i = 0; i < 2; i++, text++) {
            bool shown = *text != '.';
            unsigned shift = i == 0 ? 4 : 0;
            v->shown[v->mac_len] |= (uint8_t)((shown ? 0xF : 0) << shift);
            v->mac[v->mac_len] |= (uint8_t)((shown ? vector_file_digit(*text) : 0) << shift);
        }
        v->mac_len++;
    }
}

struct vectors {
    struct vector at[VECTORS];
    size_t count;
};

static void add_line(void *context, const char *keyword, const char *value)
{
    struct vectors *vectors = context;
    if (strcmp(keyword, "size") == 0) {
        if (vectors->count == VECTORS)
            vector_file_stop("too many cases");
        vectors->at[vectors->count++].size = (uint32_t)strtoul(value, NULL, 10);
        return;
    }
    if (vectors->count == 0)
        vector_file_stop("a case does not begin with its size");
    struct vector *v = &vectors->at[vectors->count - 1];
    if (strcmp(keyword, "key_length") == 0)
        v->printed_key_len = strtoul(value, NULL, 10);
    else if (strcmp(keyword, "message_length") == 0)
        v->printed_message_len = strtoul(value, NULL, 10);
    else if (strcmp(keyword, "key") == 0)
        add_key(v, value);
    else if (strcmp(keyword, "message") == 0)
        add_message(v, value);
    else if (strcmp(keyword, "mac") == 0)
        add_mac(v, value);
    else
        vector_file_stop("an unknown keyword");
}

/* One digest of FIPS 198-1: of the key's block, mixed with a pad byte, and then the text.
 */
static void keyed_digest(digest_call *digest, uint32_t size, const uint8_t *key_block,
                         uint8_t pad, const uint8_t *text, size_t text_len, uint8_t *out)
{
    uint8_t joined[128 + MOST_MESSAGE];
    size_t block_len = size <= 256 ? 64 : 128;
    for (size_t i = 0; i < block_len; i++)
        joined[i] = key_block[i] ^ pad;
    memcpy(joined + block_len, text, text_len);
    digest(size, joined, block_len + text_len, out, size / 8);
}

static void hmac(digest_call *digest, const struct vector *v, uint8_t *mac)
{
    uint8_t key_block[128] = {0}, inner[MOST_MAC] = {0};
    size_t block_len = v->size <= 256 ? 64 : 128;
    if (v->key_len > block_len)
        digest(v->size, v->key, v->key_len, key_block, v->size / 8);
    else
        memcpy(key_block, v->key, v->key_len);
    keyed_digest(digest, v->size, key_block, 0x36, v->message, v->message_len, inner);
    keyed_digest(digest, v->size, key_block, 0x5C, inner, v->size / 8, mac);
}

/* Whether the digest reproduces all of the printed value that can be read. */
static bool reproduces(digest_call *digest, const struct vector *v)
{
    uint8_t mac[MOST_MAC] = {0};
    hmac(digest, v, mac);
    for (size_t i = 0; i < v->mac_len; i++)
        if ((mac[i] & v->shown[i]) != v->mac[i])
            return false;
    return true;
}

static unsigned count_reproduced(digest_call *digest, const struct vector *vectors,
                                 size_t count)
{
    unsigned reproduced = 0;
    for (size_t i = 0; i < count; i++)
        reproduced += reproduces(digest, &vectors[i]);
    return reproduced;
}

static uint64_t digest_first_half_first(uint32_t size, const uint8_t *message,
                                        size_t message_len, uint8_t *out, size_t out_len)
{
    static const struct variant variant = {C0_IS_FIRST_HALF, rotations_32, rotations_64};
    return reference_digest_by(&variant, size, message, message_len, out, out_len);
}

static uint64_t digest_by_rhash_amounts(uint32_t size, const uint8_t *message,
                                        size_t message_len, uint8_t *out, size_t out_len)
{
    return reference_digest_by(&rhash_variant, size, message, message_len, out, out_len);
}

static void check_file(const struct vector *vectors, size_t count)
{
    check_group("the vector file");
    check(count == VECTORS, "%zu cases", count);
    for (size_t i = 0; i < count; i++) {
        const struct vector *v = &vectors[i];
        check(v->key_len == v->printed_key_len, "case %zu: key of %zu bytes", i,
              v->key_len);
        check(v->message_len == v->printed_message_len, "case %zu: message of %zu bytes", i,
              v->message_len);
        check(v->mac_len == v->size / 8, "case %zu: mac of %zu bytes", i, v->mac_len);
    }
}

/* What the printed values decide: the order of the pipe's halves and the amounts. */
static void check_readings(const struct vector *vectors, size_t count)
{
    unsigned second = count_reproduced(reference_digest, vectors, count);
    unsigned first = count_reproduced(digest_first_half_first, vectors, count);
    unsigned rhash = count_reproduced(digest_by_rhash_amounts, vectors, count);
    check_group("printed values from the reference, by its readings");
    printf("  C0 the second half of the pipe: %u of %zu\n", second, count);
    printf("  C0 the first half of the pipe: %u of %zu\n", first, count);
    printf("  C0 the second half, amounts of rhash: %u of %zu\n", rhash, count);
    check(second == VECTORS, "C0 the second half: %u", second);
    check(first == 0, "C0 the first half: %u", first);
    check(rhash == 0, "amounts of rhash: %u", rhash);
}

int main(int argc, char **argv)
{
    static struct vectors vectors;
    int argument = check_program("hmac_values", argc, argv);
    const char *path = argument < argc ? argv[argument] : "tests/vectors/hmac.txt";
    vector_file_read(path, add_line, &vectors);
    check_file(vectors.at, vectors.count);
    check_group("printed values from the archive");
    for (size_t i = 0; i < vectors.count; i++)
        check(reproduces(edonr_digest, &vectors.at[i]), "case %zu, size %u", i,
              (unsigned)vectors.at[i].size);
    check_readings(vectors.at, vectors.count);
    return check_finish();
}
