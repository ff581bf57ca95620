/*
 * archive products|flips 32|64: the records of a run, as they are and laid out for an
 * archive, into plain.bin and shuffled.bin.
 *
 * The sheet is one of 1,365 products or of 2,048 flips, over vectors whose words are 1 to
 * 64. It is run by slices of one command, and after each the vectors are a record.
 */
#include <stdio.h>
#include <string.h>

#include "edonr.h"

enum { SHEET_BYTES = 4096, MOST_RECORD_BYTES = 512, MOST_RECORDS = SHEET_BYTES / 2 };

static uint8_t plain[MOST_RECORDS * MOST_RECORD_BYTES];
static uint8_t shuffled[MOST_RECORDS * MOST_RECORD_BYTES];
static uint8_t again[MOST_RECORDS * MOST_RECORD_BYTES];

/* V0 becomes V1*V0, V1 becomes V1*V2, and so on through all places, again and again. */
static size_t make_products(uint8_t sheet[SHEET_BYTES])
{
    size_t len = 0;
    for (unsigned i = 0; len + 3 <= SHEET_BYTES; i++) {
        sheet[len++] = (uint8_t)(1 + i % 2);
        sheet[len++] = (uint8_t)(i % EDONR_PLACES);
        sheet[len++] = (uint8_t)((i + 1) % EDONR_PLACES);
    }
    return len;
}

static size_t make_flips(uint8_t sheet[SHEET_BYTES])
{
    size_t len = 0;
    for (unsigned i = 0; len + 2 <= SHEET_BYTES; i++) {
        sheet[len++] = 6;
        sheet[len++] = (uint8_t)(i % EDONR_PLACES);
    }
    return len;
}

/* The length of the records, or 0 if a slice was refused. */
static size_t record_run(uint32_t width, const uint8_t *sheet, size_t sheet_len)
{
    uint8_t vectors[MOST_RECORD_BYTES] = {0};
    size_t record = (size_t)EDONR_PLACES * width, len = 0;
    for (unsigned i = 0; i < 64; i++)
        vectors[i * (width / 8)] = (uint8_t)(i + 1);
    for (uint32_t offset = 0; offset < sheet_len; len += record) {
        uint64_t answer = edonr_run_slice(width, vectors, record, sheet, sheet_len, offset, 1);
        if (edonr_refusal(answer) != 0)
            return 0;
        offset = edonr_slice_offset(answer);
        memcpy(plain + len, vectors, record);
    }
    return len;
}

static int write_file(const char *name, const uint8_t *bytes, size_t len)
{
    FILE *file = fopen(name, "wb");
    if (file == NULL)
        return 0;
    size_t written = fwrite(bytes, 1, len, file);
    return fclose(file) == 0 && written == len;
}

int main(int argc, char **argv)
{
    static uint8_t sheet[SHEET_BYTES];
    if (argc != 3 || (strcmp(argv[1], "products") != 0 && strcmp(argv[1], "flips") != 0) ||
        (strcmp(argv[2], "32") != 0 && strcmp(argv[2], "64") != 0)) {
        fprintf(stderr, "usage: archive products|flips 32|64\n");
        return 2;
    }
    uint32_t width = argv[2][0] == '3' ? 32 : 64;
    size_t sheet_len = argv[1][0] == 'p' ? make_products(sheet) : make_flips(sheet);
    size_t len = record_run(width, sheet, sheet_len);
    if (len == 0 || edonr_shuffle(width, plain, len, shuffled, len) != len ||
        edonr_unshuffle(width, shuffled, len, again, len) != len ||
        memcmp(plain, again, len) != 0) {
        fprintf(stderr, "archive: a call was refused, or the bytes did not come back\n");
        return 1;
    }
    if (!write_file("plain.bin", plain, len) || !write_file("shuffled.bin", shuffled, len)) {
        perror("archive");
        return 1;
    }
    printf("%zu records of %zu bytes\n", len / (EDONR_PLACES * (size_t)width),
           (size_t)EDONR_PLACES * width);
    return 0;
}
