/*
 * Counts what passed and what failed, by group and in all.
 */
#ifndef HARNESS_CHECK_H
#define HARNESS_CHECK_H

#include <stdbool.h>

/*
 * Opens the count of a program, reads its options and seeds its random data:
 *   -s seed  the seed (1)
 *   -e       the program ends at the first failure
 * Gives the place of the first argument behind the options.
 */
int check_program(const char *name, int argc, char **argv);

/* Opens a group; the group before is closed and its line printed. */
void check_group(const char *format, ...) __attribute__((format(printf, 1, 2)));

/* Counts one comparison. The first few failures of a group are described on stderr. */
void check(bool passed, const char *format, ...) __attribute__((format(printf, 2, 3)));

/* Closes the count, prints its line and gives the program's exit status. */
int check_finish(void);

#endif
