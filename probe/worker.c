#define _POSIX_C_SOURCE 200809L

#include "worker.h"

#include <stdio.h>
#include <string.h>

#include "clock.h"
#include "edonr.h"
#include "stop.h"

typedef uint64_t run_function(uint32_t width, uint8_t *vectors, size_t vectors_len,
                              const uint8_t *sheet, size_t sheet_len);

static void publish(struct worker *worker, const struct progress *progress)
{
    pthread_mutex_lock(&worker->lock);
    worker->progress = *progress;
    pthread_mutex_unlock(&worker->lock);
}

static bool check_answer(uint64_t answer, uint64_t expected, enum fault_kind kind,
                         uint64_t run, struct progress *progress)
{
    if (answer == expected)
        return true;
    progress->fault = (struct fault){
        .kind = kind, .run = run, .answer = answer, .expected = expected};
    return false;
}

static bool run_sheet(struct worker *worker, run_function *run, enum fault_kind kind,
                      uint64_t number, struct progress *progress)
{
    const struct load *load = worker->load;
    uint64_t answer = run(load->width, worker->vectors, load->vectors_len, load->sheet,
                          load->sheet_len);
    return check_answer(answer, load->units, kind, number, progress);
}

static bool take_mark(struct worker *worker, double elapsed, struct progress *progress)
{
    uint32_t size = worker->load->width == 32 ? 256 : 512;
    uint8_t digest[64];
    uint64_t answer = edonr_digest(size, worker->vectors, worker->load->vectors_len, digest,
                                   sizeof digest);
    if (!check_answer(answer, size / 8, FAULT_DIGEST, progress->runs, progress))
        return false;
    struct mark *mark = &progress->mark;
    mark->elapsed = elapsed;
    mark->runs = progress->runs;
    mark->units = progress->runs * worker->load->units;
    mark->commands = progress->runs * worker->load->commands;
    for (size_t i = 0; i < size / 8; i++)
        snprintf(mark->digest + 2 * i, 3, "%02x", digest[i]);
    log_write(worker->log, worker->number, mark);
    return true;
}

static bool reached_limit(const struct options *options, uint64_t runs, double elapsed)
{
    return (options->runs != 0 && runs >= options->runs) ||
           (options->seconds != 0 && elapsed >= options->seconds);
}

/* At least one run, so that there is a way back to go. */
static bool go_out(struct worker *worker, struct progress *progress)
{
    const struct options *options = worker->options;
    double next_mark = options->interval;
    for (;;) {
        if (!run_sheet(worker, edonr_run_forward, FAULT_OUT, progress->runs + 1, progress))
            return false;
        progress->runs++;
        double elapsed = clock_since(worker->start);
        bool is_far_enough = reached_limit(options, progress->runs, elapsed);
        if (is_far_enough || stop_reason() != STOP_NONE) {
            progress->early = !is_far_enough;
            return true;
        }
        if (elapsed >= next_mark && !take_mark(worker, elapsed, progress))
            return false;
        while (next_mark <= elapsed)
            next_mark += options->interval;
        publish(worker, progress);
    }
}

static bool turn(struct worker *worker, struct progress *progress)
{
    double elapsed = clock_since(worker->start);
    if (!take_mark(worker, elapsed, progress))
        return false;
    if (worker->options->self_test)
        worker->vectors[0] ^= 1;
    progress->phase = PHASE_HOME;
    progress->turned_at = elapsed;
    progress->left = progress->runs;
    publish(worker, progress);
    return true;
}

static bool go_home(struct worker *worker, struct progress *progress)
{
    while (progress->left > 0) {
        if (!run_sheet(worker, edonr_run_backward, FAULT_HOME, progress->left, progress))
            return false;
        progress->left--;
        publish(worker, progress);
    }
    return true;
}

static void look_for_start(const struct worker *worker, struct progress *progress)
{
    for (size_t i = 0; i < worker->load->vectors_len; i++) {
        if (worker->vectors[i] != worker->load->vectors[i]) {
            progress->fault =
                (struct fault){.kind = FAULT_START, .run = progress->runs, .byte = i};
            return;
        }
    }
}

static void *work(void *argument)
{
    struct worker *worker = argument;
    struct progress progress = {.phase = PHASE_OUT};
    if (go_out(worker, &progress) && turn(worker, &progress) && go_home(worker, &progress))
        look_for_start(worker, &progress);
    else
        stop_ask(STOP_FAULT);
    progress.phase = PHASE_ENDED;
    progress.ended_at = clock_since(worker->start);
    publish(worker, &progress);
    return NULL;
}

bool worker_start(struct worker *worker)
{
    memcpy(worker->vectors, worker->load->vectors, worker->load->vectors_len);
    worker->progress = (struct progress){.phase = PHASE_OUT};
    pthread_mutex_init(&worker->lock, NULL);
    return pthread_create(&worker->thread, NULL, work, worker) == 0;
}

struct progress worker_progress(struct worker *worker)
{
    pthread_mutex_lock(&worker->lock);
    struct progress progress = worker->progress;
    pthread_mutex_unlock(&worker->lock);
    return progress;
}

void worker_join(struct worker *worker)
{
    pthread_join(worker->thread, NULL);
    pthread_mutex_destroy(&worker->lock);
}
