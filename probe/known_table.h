/*
 * Known answers: what the kit's calls give for fixed bytes, at both widths.
 *
 * The table is no authority of its own: tests/known_answers.c works every entry out again
 * with the reference in tests/reference.
 */
#ifndef PROBE_KNOWN_TABLE_H
#define PROBE_KNOWN_TABLE_H

#include <stddef.h>
#include <stdint.h>

#include "edonr.h"

enum { KNOWN_ANSWERS = 18, KNOWN_MOST_BYTES = EDONR_PLACES * 64 };

enum known_call {
    KNOWN_PRODUCT,        /* first * second */
    KNOWN_LEFT_DIVISION,  /* first \ second */
    KNOWN_RIGHT_DIVISION, /* first / second */
    KNOWN_DIGEST,         /* of first, in one call */
    KNOWN_PIECES,         /* of first, cut in pieces */
    KNOWN_FORWARD,        /* over the vectors first, by the sheet second */
    KNOWN_BACKWARD
};

/* Bytes are written as hexadecimal digits, two a byte. */
struct known {
    const char *name;
    enum known_call call;
    uint32_t parameter; /* the width; of a digest the size */
    const char *first, *second;
    const char *result;
    uint64_t answer;
};

extern const struct known known_table[KNOWN_ANSWERS];

struct known_bytes {
    uint8_t at[KNOWN_MOST_BYTES];
    size_t len;
};

/* What a text of the table stands for. */
struct known_bytes known_bytes(const char *text);

#endif
