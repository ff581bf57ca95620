/*
 * Answers of the kit in words.
 */
#ifndef PROBE_REFUSAL_H
#define PROBE_REFUSAL_H

#include <stddef.h>
#include <stdint.h>

enum { ANSWER_TEXT = 160 };

/* A refusal, marked or not, as number, name, offset and meaning; a success below 2^32 as its
   number. The text is cut to len bytes, its closing zero among them. */
void answer_text(uint64_t answer, char *text, size_t len);

#endif
