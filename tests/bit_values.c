/*
 * bit_values [file]: the digests of messages of any number of bits in the file, whose head
 * gives its form, against the archive: opened, fed and finished with bits, and, where a
 * message is one of whole bytes, in one call and finished without.
 */
#include <inttypes.h>
#include <stdbool.h>
#include <stdlib.h>
#include <string.h>

#include "edonr.h"
#include "harness/check.h"
#include "harness/hash_call.h"
#include "harness/vector_file.h"
#include "reference/bits.h"

enum { ENTRIES = 4 * 146, MOST_MESSAGE = 1000, MOST_DIGEST = 64 };

struct bytes {
    uint8_t at[MOST_MESSAGE];
    size_t len;
};

struct entry {
    uint32_t size;
    size_t bits;
    struct bytes message, digest;
};

struct entries {
    struct entry at[ENTRIES];
    size_t count;
    uint32_t size; /* of those that follow */
};

static void read_bytes(struct bytes *bytes, const char *text)
{
    for (bytes->len = 0; *text != '\0'; text += 2) {
        if (bytes->len == MOST_MESSAGE)
            vector_file_stop("too many bytes");
        bytes->at[bytes->len++] =
            (uint8_t)(vector_file_digit(text[0]) << 4 | vector_file_digit(text[1]));
    }
}

/* A line is a keyword, an equals sign and a value. */
static void add_line(void *context, const char *keyword, const char *text)
{
    struct entries *entries = context;
    if (strncmp(text, "= ", 2) != 0)
        vector_file_stop("a line without an equals sign");
    const char *value = text + 2;
    if (strcmp(keyword, "Size") == 0) {
        entries->size = (uint32_t)strtoul(value, NULL, 10);
        return;
    }
    if (strcmp(keyword, "Len") == 0) {
        if (entries->count == ENTRIES)
            vector_file_stop("too many entries");
        entries->at[entries->count].size = entries->size;
        entries->at[entries->count++].bits = strtoul(value, NULL, 10);
        return;
    }
    if (entries->count == 0)
        vector_file_stop("an entry does not begin with its length");
    struct entry *entry = &entries->at[entries->count - 1];
    if (strcmp(keyword, "Msg") == 0)
        read_bytes(&entry->message, value);
    else if (strcmp(keyword, "MD") == 0)
        read_bytes(&entry->digest, value);
    else
        vector_file_stop("an unknown keyword");
}

/* Ends the program at an entry that is not as the file's head says. */
static void look_at_entry(const struct entry *entry)
{
    size_t len = entry->bits == 0 ? 1 : (entry->bits + 7) / 8;
    bool is_size = entry->size == 224 || entry->size == 256 || entry->size == 384 ||
                   entry->size == 512;
    if (!is_size || entry->digest.len != entry->size / 8)
        vector_file_stop("a digest has not its length");
    if (entry->message.len != len)
        vector_file_stop("a message has not its length");
    if (entry->message.at[len - 1] & ((1u << (8 * len - entry->bits)) - 1))
        vector_file_stop("a message has bits behind its last");
}

static void check_digest_of(const struct entry *entry, const char *way, uint64_t answer,
                            const uint8_t *digest)
{
    check(answer == entry->digest.len &&
              memcmp(digest, entry->digest.at, entry->digest.len) == 0,
          "size %" PRIu32 ", %zu bits, %s: answered %" PRIx64, entry->size, entry->bits,
          way, answer);
}

/* The byte behind those that are fed gives the last bits; none, where it gives none. */
static void check_entry(const struct entry *entry)
{
    enum kind kind = entry->size <= 256 ? NARROW : WIDE;
    uint32_t size = entry->size, count = entry->bits % 8;
    size_t fed = entry->bits / 8, len = size / 8;
    uint8_t last = count > 0 ? entry->message.at[fed] : 0, digest[MOST_DIGEST] = {0};
    union hash hash = {0};
    reference_digest_of_bits(size, entry->message.at, entry->bits, digest);
    check_digest_of(entry, "by the reference", len, digest);
    check_open_call(kind, &hash, size);
    check_feed_call(kind, &hash, entry->message.at, fed);
    check_digest_of(entry, "finished with bits",
                    check_finish_bits_call(kind, &hash, last, count, len, digest), digest);
    last |= (uint8_t)(0xFF >> count);
    check_digest_of(entry, "with other bits behind",
                    check_finish_bits_call(kind, &hash, last, count, len, digest), digest);
    if (count > 0)
        return;
    check_digest_of(entry, "finished", check_finish_call(kind, &hash, len, digest), digest);
    check_digest_of(entry, "in one call",
                    edonr_digest(size, entry->message.at, fed, digest, len), digest);
}

int main(int argc, char **argv)
{
    static struct entries entries;
    int argument = check_program("bit_values", argc, argv);
    const char *path = argument < argc ? argv[argument] : "tests/vectors/bits.txt";
    vector_file_read(path, add_line, &entries);
    check_group("messages of any number of bits");
    check(entries.count == ENTRIES, "%zu entries", entries.count);
    for (size_t i = 0; i < entries.count; i++) {
        look_at_entry(&entries.at[i]);
        check_entry(&entries.at[i]);
    }
    return check_finish();
}
