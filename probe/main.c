/*
 * edonr-probe: drives a machine out along load sheets and home again, and tells whether it
 * came home.
 */
#define _POSIX_C_SOURCE 200809L

#include <stdbool.h>
#include <stdio.h>
#include <stdlib.h>

#include "clock.h"
#include "display.h"
#include "known.h"
#include "load.h"
#include "log.h"
#include "options.h"
#include "stop.h"
#include "verdict.h"
#include "worker.h"

enum { STATUS_WRONG = 1, STATUS_UNABLE = 2 };

static const double look_seconds = 0.1;

struct probe {
    struct options options;
    struct timespec start;
    struct log log;
    struct load *loads; /* one for each thread, as in the two arrays below */
    struct worker *workers;
    struct progress *progress;
};

static bool take_memory(struct probe *probe)
{
    size_t threads = probe->options.threads;
    probe->loads = calloc(threads, sizeof *probe->loads);
    probe->workers = aligned_alloc(CACHE_LINE, threads * sizeof *probe->workers);
    probe->progress = calloc(threads, sizeof *probe->progress);
    if (probe->loads != NULL && probe->workers != NULL && probe->progress != NULL)
        return true;
    fprintf(stderr, "edonr-probe: no memory for %zu threads\n", threads);
    return false;
}

static void give_memory_back(struct probe *probe)
{
    free(probe->loads);
    free(probe->workers);
    free(probe->progress);
}

static void join_workers(struct probe *probe, unsigned started)
{
    for (unsigned i = 0; i < started; i++)
        worker_join(&probe->workers[i]);
}

static bool start_workers(struct probe *probe)
{
    probe->start = clock_now();
    for (unsigned i = 0; i < probe->options.threads; i++) {
        struct worker *worker = &probe->workers[i];
        worker->number = i;
        worker->options = &probe->options;
        worker->load = &probe->loads[i];
        worker->start = &probe->start;
        worker->log = &probe->log;
        if (!worker_start(worker)) {
            fprintf(stderr, "edonr-probe: cannot start thread %u\n", i);
            stop_ask(STOP_FAULT);
            join_workers(probe, i);
            return false;
        }
    }
    return true;
}

static bool look(struct probe *probe)
{
    bool all_ended = true;
    for (unsigned i = 0; i < probe->options.threads; i++) {
        probe->progress[i] = worker_progress(&probe->workers[i]);
        all_ended = all_ended && probe->progress[i].phase == PHASE_ENDED;
    }
    return all_ended;
}

static int travel(struct probe *probe)
{
    struct display display;
    stop_catch_signals();
    display_open(&display, &probe->options, probe->loads);
    if (!start_workers(probe))
        return STATUS_UNABLE;
    bool all_ended;
    do {
        clock_sleep(look_seconds);
        all_ended = look(probe);
        display_update(&display, probe->progress, clock_since(&probe->start));
    } while (!all_ended);
    join_workers(probe, probe->options.threads);
    return verdict(&probe->options, probe->progress);
}

/* Known answers first: the calls try the sheets, too. */
static int run(struct probe *probe)
{
    if (!known_check())
        return STATUS_WRONG;
    if (!load_prepare(&probe->options, probe->loads) ||
        !log_open(&probe->options, &probe->log))
        return STATUS_UNABLE;
    int status = travel(probe);
    if (!log_close(&probe->log) && status == 0)
        status = STATUS_UNABLE;
    return status;
}

int main(int argc, char **argv)
{
    struct probe probe;
    (void)argc;
    if (!options_read(argv + 1, &probe.options))
        return STATUS_UNABLE;
    if (probe.options.help) {
        options_print_help();
        return 0;
    }
    /* Who reads the lines through a pipe sees each when it is written. */
    setvbuf(stdout, NULL, _IOLBF, 0);
    int status = take_memory(&probe) ? run(&probe) : STATUS_UNABLE;
    give_memory_back(&probe);
    return status;
}
