#define _POSIX_C_SOURCE 200809L

#include "display.h"

#include <inttypes.h>
#include <stdarg.h>
#include <stdio.h>
#include <string.h>
#include <unistd.h>

#include "known_table.h"
#include "stop.h"

/* A longer line would wrap, and could not be replaced. */
enum { TERMINAL_COLUMNS = 79, MOST_LINE = 200 };

__attribute__((format(printf, 2, 3))) static void show(struct display *display,
                                                       const char *format, ...)
{
    char line[MOST_LINE];
    va_list arguments;
    va_start(arguments, format);
    vsnprintf(line, display->is_terminal ? TERMINAL_COLUMNS + 1 : sizeof line, format,
              arguments);
    va_end(arguments);
    if (!display->is_terminal) {
        printf("%s\n", line);
        return;
    }
    printf("\r%-*s", (int)display->on_screen, line);
    fflush(stdout);
    display->on_screen = strlen(line);
}

static void clear_line(struct display *display)
{
    if (display->on_screen > 0)
        printf("\r%-*s\r", (int)display->on_screen, "");
    display->on_screen = 0;
}

static bool any_in_phase(const struct display *display, const struct progress *threads,
                         enum phase phase)
{
    for (unsigned i = 0; i < display->options->threads; i++)
        if (threads[i].phase == phase)
            return true;
    return false;
}

static void show_out(struct display *display, const struct progress *threads,
                     double elapsed)
{
    uint64_t runs = 0;
    double rate = 0;
    for (unsigned i = 0; i < display->options->threads; i++) {
        double seconds = threads[i].turned_at > 0 ? threads[i].turned_at : elapsed;
        runs += threads[i].runs;
        rate += (double)threads[i].runs * (double)display->loads[i].units / seconds;
    }
    const struct mark *mark = &threads[0].mark;
    if (mark->runs == 0)
        show(display, "out   %.1f s, %" PRIu64 " runs, %.2f M units/s", elapsed, runs,
             rate * 1e-6);
    else
        show(display, "out   %.1f s, %" PRIu64 " runs, %.2f M units/s, digest %.8s.. of "
                      "run %" PRIu64,
             elapsed, runs, rate * 1e-6, mark->digest, mark->runs);
}

/* By the pace of the way home; before its first run is undone, by that of the way out. */
static double seconds_left(const struct progress *thread, double elapsed)
{
    if (thread->phase != PHASE_HOME)
        return 0;
    uint64_t undone = thread->runs - thread->left;
    if (undone == 0)
        return thread->turned_at;
    return (double)thread->left * (elapsed - thread->turned_at) / (double)undone;
}

static void show_home(struct display *display, const struct progress *threads,
                      double elapsed)
{
    uint64_t runs = 0, left = 0;
    double longest = 0;
    for (unsigned i = 0; i < display->options->threads; i++) {
        double seconds = seconds_left(&threads[i], elapsed);
        runs += threads[i].runs;
        left += threads[i].left;
        longest = seconds > longest ? seconds : longest;
    }
    show(display, "home  %.1f s, %" PRIu64 " of %" PRIu64 " runs left, about %.1f s",
         elapsed, left, runs, longest);
}

/* Threads that were asked home are about to turn; elsewhere than at a terminal a line waits
   for its interval, and for the digest of it. */
static bool is_due(const struct display *display, const struct progress *threads,
                   double elapsed)
{
    if (stop_reason() != STOP_NONE && any_in_phase(display, threads, PHASE_OUT))
        return false;
    if (display->is_terminal)
        return true;
    return elapsed >= display->next_line &&
           (threads[0].phase != PHASE_OUT || threads[0].mark.elapsed >= display->next_line);
}

static bool any_early(const struct display *display, const struct progress *threads)
{
    for (unsigned i = 0; i < display->options->threads; i++)
        if (threads[i].early)
            return true;
    return false;
}

/* Once, when a signal or a fault has come. */
static void tell_stop(struct display *display, const struct progress *threads)
{
    if (display->told_stop || stop_reason() == STOP_NONE)
        return;
    display->told_stop = true;
    const char *signal = stop_signal_name(stop_reason());
    bool is_out = any_in_phase(display, threads, PHASE_OUT);
    bool is_home = any_in_phase(display, threads, PHASE_HOME);
    clear_line(display);
    if (signal != NULL)
        printf("%s: %s; a second one ends the program without an answer\n", signal,
               is_out || any_early(display, threads) ? "going home early"
                                                     : "already going home");
    else if (is_out || is_home)
        printf("a thread failed: the others are going home\n");
}

/* Once, when no thread is going out any more. */
static void tell_turn(struct display *display, const struct progress *threads)
{
    if (display->told_turn || any_in_phase(display, threads, PHASE_OUT))
        return;
    display->told_turn = true;
    clear_line(display);
    for (unsigned i = 0; i < display->options->threads; i++)
        if (threads[i].turned_at > 0)
            printf("turn  thread %u at %.2f s, %" PRIu64 " runs of %" PRIu64
                   " units in %" PRIu64 " commands, digest %s\n",
                   i, threads[i].turned_at, threads[i].runs, display->loads[i].units,
                   display->loads[i].commands, threads[i].mark.digest);
}

void display_open(struct display *display, const struct options *options,
                  const struct load *loads)
{
    *display = (struct display){.options = options,
                                .loads = loads,
                                .is_terminal = isatty(STDOUT_FILENO) != 0,
                                .next_line = options->interval};
    printf("known answers: all %u right\n", (unsigned)KNOWN_ANSWERS);
    printf("width %" PRIu32 ", seed %" PRIu64 ", %u thread%s; going out for",
           options->width, options->seed, options->threads, options->threads > 1 ? "s" : "");
    if (options->seconds != 0)
        printf(" %g s", options->seconds);
    if (options->runs != 0)
        printf("%s %" PRIu64 " runs", options->seconds != 0 ? " or" : "", options->runs);
    printf("\n");
    if (options->self_test)
        printf("self-test: a bit will be flipped on purpose where each thread turns\n");
}

void display_update(struct display *display, const struct progress *threads,
                    double elapsed)
{
    tell_stop(display, threads);
    tell_turn(display, threads);
    if (!is_due(display, threads, elapsed))
        return;
    if (any_in_phase(display, threads, PHASE_OUT))
        show_out(display, threads, elapsed);
    else if (any_in_phase(display, threads, PHASE_HOME))
        show_home(display, threads, elapsed);
    else
        clear_line(display);
    while (display->next_line <= elapsed)
        display->next_line += display->options->interval;
}
