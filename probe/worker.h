/*
 * One thread's way out and its way home.
 *
 * A worker keeps the vectors that it works on and those of the start, and nothing of what
 * lies between: only the way back can find the start again.
 */
#ifndef PROBE_WORKER_H
#define PROBE_WORKER_H

#include <pthread.h>
#include <stdbool.h>
#include <stdint.h>
#include <time.h>

#include "load.h"
#include "log.h"
#include "options.h"

enum { CACHE_LINE = 64 };

enum phase { PHASE_OUT, PHASE_HOME, PHASE_ENDED };

enum fault_kind {
    FAULT_NONE,
    FAULT_OUT,    /* a run on the way out answered wrongly */
    FAULT_DIGEST, /* a digest did */
    FAULT_HOME,   /* a run on the way home did */
    FAULT_START   /* every answer was right, and the start was not found */
};

struct fault {
    enum fault_kind kind;
    uint64_t run;      /* the run on the way out that was done, digested or undone */
    uint64_t answer;   /* the wrong one */
    uint64_t expected; /* the right one */
    size_t byte;       /* FAULT_START: the first byte of the vectors that differs */
};

struct progress {
    enum phase phase;
    uint64_t runs;    /* done on the way out */
    uint64_t left;    /* to be undone on the way home */
    double turned_at; /* elapsed seconds; 0 until then */
    double ended_at;
    bool early; /* turned because it was asked to */
    struct mark mark; /* the last one; its runs are 0 if there is none */
    struct fault fault;
};

struct worker {
    /* Threads that wrote to one cache line would slow each other down. */
    _Alignas(CACHE_LINE) uint8_t vectors[MOST_VECTORS_BYTES];
    unsigned number;
    const struct options *options;
    const struct load *load;
    const struct timespec *start;
    struct log *log;
    pthread_t thread;
    pthread_mutex_t lock;
    struct progress progress; /* shared, under lock */
};

/* Starts the thread of a worker whose number, options, load, start and log are set. False
   if the system gives no thread. */
bool worker_start(struct worker *worker);

/* How far the worker is. */
struct progress worker_progress(struct worker *worker);

/* Waits for the thread's end. */
void worker_join(struct worker *worker);

#endif
