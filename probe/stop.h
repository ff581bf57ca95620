/*
 * The one wish that all threads obey: to stop going out and go home.
 */
#ifndef PROBE_STOP_H
#define PROBE_STOP_H

/* A reason is STOP_NONE, STOP_FAULT or the number of a signal. */
enum { STOP_NONE = 0, STOP_FAULT = -1 };

/* From here on SIGINT and SIGTERM are such a wish. Either one, when it comes a second
   time, ends the program as if it had never been caught. SIGPIPE is ignored: whoever reads
   the lines may leave, and the exit status still tells whether the machine came home. */
void stop_catch_signals(void);

/* The first reason given stays. */
void stop_ask(int reason);

int stop_reason(void);

/* The name of a reason that is a signal; NULL for the others. */
const char *stop_signal_name(int reason);

#endif
