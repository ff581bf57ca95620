#define _POSIX_C_SOURCE 200809L

#include "check.h"

#include <stdarg.h>
#include <stdio.h>
#include <stdlib.h>
#include <unistd.h>

#include "random.h"

enum { DESCRIBED_FAILURES = 5 };

struct count {
    unsigned long long passed, failed;
};

static const char *program;
static bool ends_at_failure;
static char group[80];
static struct count in_group, in_all;

static void close_group(void)
{
    if (in_group.passed + in_group.failed > 0)
        printf("  %s: %llu passed, %llu failed\n", group, in_group.passed, in_group.failed);
    fflush(stdout);
    in_all.passed += in_group.passed;
    in_all.failed += in_group.failed;
    in_group = (struct count){0, 0};
}

int check_program(const char *name, int argc, char **argv)
{
    unsigned long long seed = 1;
    for (int option; (option = getopt(argc, argv, "s:e")) != -1;) {
        switch (option) {
        case 's': seed = strtoull(optarg, NULL, 10); break;
        case 'e': ends_at_failure = true; break;
        default: exit(2);
        }
    }
    program = name;
    printf("%s, seed %llu\n", program, seed);
    random_seed(seed);
    return optind;
}

void check_group(const char *format, ...)
{
    close_group();
    va_list arguments;
    va_start(arguments, format);
    vsnprintf(group, sizeof group, format, arguments);
    va_end(arguments);
}

void check(bool passed, const char *format, ...)
{
    if (passed) {
        in_group.passed++;
        return;
    }
    in_group.failed++;
    if (in_group.failed > DESCRIBED_FAILURES)
        return;
    fprintf(stderr, "  %s: failed: ", group);
    va_list arguments;
    va_start(arguments, format);
    vfprintf(stderr, format, arguments);
    va_end(arguments);
    fputc('\n', stderr);
    if (ends_at_failure)
        exit(check_finish());
}

int check_finish(void)
{
    close_group();
    printf("%s: %llu passed, %llu failed\n", program, in_all.passed, in_all.failed);
    return in_all.failed == 0 && in_all.passed > 0 ? 0 : 1;
}
