/*
 * Buffers that notice what a call does beside them.
 *
 * A buffer lies in one of three positions. In the middle of its area it has guard bytes on
 * both sides and any alignment. At the front or the back of the area it touches a page
 * that cannot be read or written, so that a read outside, which guard bytes do not show,
 * ends the program; the other side has guard bytes. An empty buffer has a fourth position,
 * the null pointer.
 */
#ifndef HARNESS_LENT_H
#define HARNESS_LENT_H

#include <stdbool.h>
#include <stddef.h>
#include <stdint.h>

enum { LENT_GUARD = 64 };

struct lent {
    uint8_t *area;
    size_t area_len;
    size_t capacity, alignment;
    uint8_t *bytes;
    size_t len;
    unsigned placed;
};

/* An area for buffers of up to capacity bytes, each at a multiple of the alignment. It
   lives as long as the program. */
struct lent lent_area(size_t capacity, size_t alignment);

/* Places a buffer of len bytes that holds a copy of content, and sets its guard bytes.
   Each placing takes another position than the one before. A length over the capacity is
   only claimed, for a call that refuses it unread: the buffer then has no bytes. */
void lent_place(struct lent *lent, const uint8_t *content, size_t len);

/* From here on each empty buffer is a null pointer, or takes its turn again. */
void lent_empty_is_null(bool always);

/* Whether the guard bytes stand and the buffer holds exactly these bytes. */
bool lent_holds(const struct lent *lent, const uint8_t *content);

#endif
