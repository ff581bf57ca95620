/*
 * The digests of a way out, as CSV.
 */
#ifndef PROBE_LOG_H
#define PROBE_LOG_H

#include <pthread.h>
#include <stdbool.h>
#include <stdint.h>
#include <stdio.h>

#include "options.h"

enum { MOST_DIGEST_TEXT = 2 * 64 + 1 };

/* The state of one thread as its digest tells it. */
struct mark {
    double elapsed;
    uint64_t runs;
    uint64_t units;
    uint64_t commands;
    char digest[MOST_DIGEST_TEXT];
};

struct log {
    const char *name;
    FILE *file; /* NULL: no log is kept */
    bool names_threads;
    bool failed;
    pthread_mutex_t lock; /* threads write in turn */
};

/* False, and a message on stderr, if the file cannot be opened. */
bool log_open(const struct options *options, struct log *log);

/* Units a second are the mean from the start on. A row is in the file when this returns,
   so that it outlives a machine that stops. */
void log_write(struct log *log, unsigned thread, const struct mark *mark);

/* False, and a message on stderr, if anything could not be written. */
bool log_close(struct log *log);

#endif
