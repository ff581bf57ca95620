/*
 * Elapsed time, by the clock that nobody sets.
 */
#ifndef PROBE_CLOCK_H
#define PROBE_CLOCK_H

#include <time.h>

struct timespec clock_now(void);

/* Seconds since then. */
double clock_since(const struct timespec *then);

void clock_sleep(double seconds);

#endif
