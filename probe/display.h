/*
 * What is shown while the threads are on their way: one line that is kept up to date at a
 * terminal, a line an interval elsewhere.
 */
#ifndef PROBE_DISPLAY_H
#define PROBE_DISPLAY_H

#include <stdbool.h>
#include <stddef.h>

#include "load.h"
#include "options.h"
#include "worker.h"

struct display {
    const struct options *options;
    const struct load *loads;
    bool is_terminal;
    size_t on_screen; /* length of the line that the next one replaces */
    double next_line;
    bool told_stop;
    bool told_turn;
};

/* To be called when the known answers were right and the loads are ready. */
void display_open(struct display *display, const struct options *options,
                  const struct load *loads);

/* To be called a few times a second, with the progress of each thread, and once more when
   all have ended. */
void display_update(struct display *display, const struct progress *threads,
                    double elapsed);

#endif
