#define _POSIX_C_SOURCE 200809L

#include "log.h"

#include <errno.h>
#include <inttypes.h>
#include <string.h>

bool log_open(const struct options *options, struct log *log)
{
    *log = (struct log){.name = options->log, .names_threads = options->threads > 1};
    pthread_mutex_init(&log->lock, NULL);
    if (log->name == NULL)
        return true;
    log->file = fopen(log->name, "w");
    if (log->file == NULL) {
        fprintf(stderr, "edonr-probe: cannot open %s: %s\n", log->name, strerror(errno));
        return false;
    }
    fprintf(log->file, "elapsed,runs,units,units_per_second,commands,digest%s\n",
            log->names_threads ? ",thread" : "");
    return true;
}

/* A coarse clock may not have moved yet. */
static double units_per_second(const struct mark *mark)
{
    return mark->elapsed > 0 ? (double)mark->units / mark->elapsed : 0;
}

void log_write(struct log *log, unsigned thread, const struct mark *mark)
{
    if (log->file == NULL)
        return;
    pthread_mutex_lock(&log->lock);
    fprintf(log->file, "%.3f,%" PRIu64 ",%" PRIu64 ",%.0f,%" PRIu64 ",%s", mark->elapsed,
            mark->runs, mark->units, units_per_second(mark), mark->commands, mark->digest);
    if (log->names_threads)
        fprintf(log->file, ",%u", thread);
    fprintf(log->file, "\n");
    if (fflush(log->file) != 0)
        log->failed = true;
    pthread_mutex_unlock(&log->lock);
}

bool log_close(struct log *log)
{
    bool failed = log->failed;
    if (log->file != NULL && fclose(log->file) != 0)
        failed = true;
    if (failed)
        fprintf(stderr, "edonr-probe: the log %s could not be written whole\n", log->name);
    pthread_mutex_destroy(&log->lock);
    return !failed;
}
