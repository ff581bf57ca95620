/*
 * What the command line asks for.
 */
#ifndef PROBE_OPTIONS_H
#define PROBE_OPTIONS_H

#include <stdbool.h>
#include <stdint.h>

struct options {
    uint32_t width;
    uint64_t seed;
    unsigned threads;
    double seconds; /* 0: no limit of time */
    uint64_t runs;  /* 0: no limit of number */
    double interval;
    const char *vectors; /* names of files; NULL where none is given */
    const char *sheet;
    const char *log;
    bool self_test;
    bool help;
};

/* False, and a message on stderr, if the program cannot do what is asked. */
bool options_read(char **arguments, struct options *options);

void options_print_help(void);

#endif
