/*
 * Plain files of test vectors: each line is a keyword, a blank and a value. Empty lines, and
 * lines that begin with #, say nothing.
 */
#ifndef HARNESS_VECTOR_FILE_H
#define HARNESS_VECTOR_FILE_H

#include <stdint.h>

/* What is done with a line. */
typedef void vector_line(void *context, const char *keyword, const char *value);

void vector_file_read(const char *path, vector_line *line, void *context);

/* The number of a hexadecimal digit. */
uint8_t vector_file_digit(char digit);

/* Ends the program: the file cannot be used. */
_Noreturn void vector_file_stop(const char *why);

#endif
