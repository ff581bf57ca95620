/*
 * The two directions of a run of a sheet, of a step of one block, and of the byte shuffle.
 */
#ifndef HARNESS_DIRECTION_H
#define HARNESS_DIRECTION_H

enum direction { FORWARD, BACKWARD, DIRECTIONS };

static inline enum direction opposite(enum direction direction)
{
    return direction == FORWARD ? BACKWARD : FORWARD;
}

static inline const char *direction_name(enum direction direction)
{
    return direction == FORWARD ? "forward" : "backward";
}

#endif
