/*
 * The look at known answers before the probe sets out.
 *
 * An error that repeats itself on the way home can cancel, and then coming home does not
 * show it. A call that is wrong each time is seen here.
 */
#ifndef PROBE_KNOWN_H
#define PROBE_KNOWN_H

#include <stdbool.h>

/* Works out the whole table, which takes a small part of a millisecond. False, and a
   message on stderr for each wrong answer, if there is one. */
bool known_check(void);

#endif
