#include "vector_file.h"

#include <ctype.h>
#include <stdio.h>
#include <stdlib.h>
#include <string.h>

enum { MOST_LINE = 2048 };

_Noreturn void vector_file_stop(const char *why)
{
    fprintf(stderr, "vector file: %s\n", why);
    exit(2);
}

uint8_t vector_file_digit(char digit)
{
    static const char digits[] = "0123456789abcdef";
    int lower = tolower((unsigned char)digit);
    const char *found = digit == '\0' ? NULL : strchr(digits, lower);
    if (found == NULL)
        vector_file_stop("not a hexadecimal digit");
    return (uint8_t)(found - digits);
}

void vector_file_read(const char *path, vector_line *line, void *context)
{
    char text[MOST_LINE];
    FILE *file = fopen(path, "r");
    if (file == NULL)
        vector_file_stop("it cannot be opened");
    while (fgets(text, sizeof text, file) != NULL) {
        if (strchr(text, '\n') == NULL && !feof(file))
            vector_file_stop("a line is too long");
        text[strcspn(text, "\r\n")] = '\0';
        if (text[0] == '\0' || text[0] == '#')
            continue;
        char *value = strchr(text, ' ');
        if (value == NULL)
            vector_file_stop("a line without a value");
        *value++ = '\0';
        line(context, text, value);
    }
    fclose(file);
}
