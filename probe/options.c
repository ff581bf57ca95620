#include "options.h"

#include <ctype.h>
#include <errno.h>
#include <stdio.h>
#include <stdlib.h>
#include <string.h>

#include "edonr.h"

enum { MOST_THREADS = 1024 };

static const double default_seconds = 3, most_seconds = 1e9, least_interval = 0.01;

static bool read_number(const char *text, uint64_t *number)
{
    bool is_hexadecimal = text[0] == '0' && tolower((unsigned char)text[1]) == 'x';
    char *end;
    errno = 0;
    *number = strtoull(text, &end, is_hexadecimal ? 16 : 10);
    return isdigit((unsigned char)text[0]) && *end == '\0' && errno == 0;
}

static bool read_seconds(const char *text, double least, double *seconds)
{
    char *end;
    *seconds = strtod(text, &end);
    return end != text && *end == '\0' && *seconds >= least && *seconds <= most_seconds;
}

static bool set_width(struct options *options, const char *value)
{
    options->width = strcmp(value, "64") == 0 ? 64 : 32;
    return options->width == 64 || strcmp(value, "32") == 0;
}

static bool set_seed(struct options *options, const char *value)
{
    return read_number(value, &options->seed);
}

static bool set_threads(struct options *options, const char *value)
{
    uint64_t threads;
    if (!read_number(value, &threads) || threads == 0 || threads > MOST_THREADS)
        return false;
    options->threads = (unsigned)threads;
    return true;
}

static bool set_seconds(struct options *options, const char *value)
{
    return read_seconds(value, 0, &options->seconds) && options->seconds > 0;
}

static bool set_runs(struct options *options, const char *value)
{
    return read_number(value, &options->runs) && options->runs > 0;
}

static bool set_interval(struct options *options, const char *value)
{
    return read_seconds(value, least_interval, &options->interval);
}

static bool set_vectors(struct options *options, const char *value)
{
    options->vectors = value;
    return true;
}

static bool set_sheet(struct options *options, const char *value)
{
    options->sheet = value;
    return true;
}

static bool set_log(struct options *options, const char *value)
{
    options->log = value;
    return true;
}

static bool set_self_test(struct options *options, const char *value)
{
    (void)value;
    options->self_test = true;
    return true;
}

static bool set_help(struct options *options, const char *value)
{
    (void)value;
    options->help = true;
    return true;
}

struct option {
    const char *name;
    bool (*set)(struct options *options, const char *value);
    const char *takes; /* NULL: no value */
};

static const struct option known[] = {
    {"--width", set_width, "32 or 64"},
    {"--seed", set_seed, "a number below 2^64, decimal or 0x and hexadecimal"},
    {"--vectors", set_vectors, "the name of a file"},
    {"--sheet", set_sheet, "the name of a file"},
    {"--seconds", set_seconds, "a time above 0 and up to 1e9"},
    {"--runs", set_runs, "a number from 1 on"},
    {"--interval", set_interval, "a time from 0.01 to 1e9"},
    {"--threads", set_threads, "a number from 1 to 1024"},
    {"--log", set_log, "the name of a file"},
    {"--self-test", set_self_test, NULL},
    {"--help", set_help, NULL},
};

static const struct option *find_option(const char *name, size_t len)
{
    for (size_t i = 0; i < sizeof known / sizeof known[0]; i++)
        if (strlen(known[i].name) == len && memcmp(known[i].name, name, len) == 0)
            return &known[i];
    return NULL;
}

/* Says what an option takes, instead of what it got. */
static bool refuse_value(const struct option *option, const char *value)
{
    fprintf(stderr, "edonr-probe: %s takes %s", option->name,
            option->takes == NULL ? "no value" : option->takes);
    if (value != NULL)
        fprintf(stderr, ", not '%s'", value);
    fprintf(stderr, "\n");
    return false;
}

/* An option and its value, in one argument or in two; *next moves behind them. */
static bool read_option(char ***next, struct options *options)
{
    const char *argument = *(*next)++;
    size_t len = strcspn(argument, "=");
    const char *value = argument[len] == '=' ? argument + len + 1 : NULL;
    const struct option *option = find_option(argument, len);
    if (option == NULL) {
        fprintf(stderr, "edonr-probe: there is no option '%s'; see edonr-probe --help\n",
                argument);
        return false;
    }
    if (option->takes == NULL)
        return value == NULL ? option->set(options, NULL) : refuse_value(option, value);
    if (value == NULL && **next != NULL)
        value = *(*next)++;
    if (value == NULL || !option->set(options, value))
        return refuse_value(option, value);
    return true;
}

bool options_read(char **arguments, struct options *options)
{
    *options = (struct options){.width = 32, .seed = 1, .threads = 1, .interval = 1};
    while (*arguments != NULL)
        if (!read_option(&arguments, options))
            return false;
    if (options->seconds == 0 && options->runs == 0)
        options->seconds = default_seconds;
    return true;
}

#define TEXT_EXPANDED(number) #number
#define TEXT(number) TEXT_EXPANDED(number)

static const char what_it_does[] =
    "usage: edonr-probe [option ...]\n"
    "\n"
    "Loads the machine with sheets of the EDON-R load kit and tells whether it came home.\n"
    "Before any thread starts, a few known answers are worked out, at both widths; if one\n"
    "is wrong, the probe does not set out. Then a sheet is run forward, again and again,\n"
    "over " TEXT(EDONR_PLACES)
    " vectors, and backward as many times. On a sound machine this gives the vectors\n"
    "of the start back, bit for bit. The way home takes about as long as the way out.\n"
    "Work is counted in units: one for each product or division. Swaps and flips count\n"
    "nothing.\n"
    "\n"
    "What coming home shows\n"
    "  That all runs gave the same answer, and that the vectors of the start are there\n"
    "  again. It does not show that every step was right: an error that repeats itself on\n"
    "  the way home can cancel. One seed, width and number of runs give one digest, on\n"
    "  every machine; so the digest where a thread turns can be held against that of\n"
    "  another machine.\n"
    "\n"
    "What is run\n"
    "  --width 32|64      bits of a word (32)\n"
    "  --seed N           vectors and sheet are made from this number (1); thread T takes\n"
    "                     N + T\n"
    "  --vectors FILE     vectors from a file: " TEXT(EDONR_PLACES) " * width bytes,\n"
    "                     V0 first; the same on every thread\n"
    "  --sheet FILE       a sheet from a file: up to 4,096 bytes; the same on every thread.\n"
    "                     One of no units loads nothing, and is warned of\n"
    "  --threads N        as many threads (1), each with vectors of its own; all of them\n"
    "                     have to come home\n"
    "\n"
    "How far\n"
    "  --seconds S        time for the way out (3, if --runs is not given)\n"
    "  --runs N           runs on the way out, for each thread; with --seconds too,\n"
    "                     whichever comes first\n"
    "  SIGINT (Ctrl-C) or SIGTERM sends all threads home early. The same signal once more\n"
    "  ends the program without an answer.\n"
    "\n";

static const char what_is_shown[] =
    "What is shown\n"
    "  --interval S       seconds from one digest of the vectors to the next (1); its size\n"
    "                     is 256 at width 32 and 512 at width 64. At a terminal one line\n"
    "                     is kept up to date, elsewhere there is a line an interval. Runs\n"
    "                     and units are of all threads, the digest is thread 0's\n"
    "  --log FILE         the digests as CSV, a row an interval and a last one where the\n"
    "                     thread turns: elapsed,runs,units,units_per_second,commands,\n"
    "                     digest and, with several threads, a last column thread. Elapsed\n"
    "                     is in seconds; runs, units and commands count from the start,\n"
    "                     and units_per_second is the mean since then\n"
    "  --self-test        flips one bit on purpose, the lowest of V0, on every thread where\n"
    "                     it turns. This passes only if no thread finds its start again\n"
    "  --help             this text\n"
    "\n"
    "Exit status\n"
    "  0  the known answers were right, and every thread came home (with --self-test: none)\n"
    "  1  a known answer was wrong, and the probe did not set out; or a call answered\n"
    "     wrongly on the way; or a thread did not come home (with --self-test: one did)\n"
    "  2  bad options, a file that cannot be read or written, a refused sheet, or threads\n"
    "     that cannot be started\n";

void options_print_help(void)
{
    printf("%s%s", what_it_does, what_is_shown);
}
