/*
 * Whether the machine came home: on every thread all answers were alike, and the vectors of
 * the start are there again.
 */
#ifndef PROBE_VERDICT_H
#define PROBE_VERDICT_H

#include "options.h"
#include "worker.h"

/* Says it, with the progress of the threads that have all ended, and gives the program's
   exit status. */
int verdict(const struct options *options, const struct progress *threads);

#endif
