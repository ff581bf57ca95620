#include "verdict.h"

#include <inttypes.h>
#include <stdio.h>

#include "refusal.h"
#include "stop.h"

typedef bool fault_test(const struct fault *fault);

static bool is_fault(const struct fault *fault)
{
    return fault->kind != FAULT_NONE;
}

static bool is_wrong_answer(const struct fault *fault)
{
    return fault->kind != FAULT_NONE && fault->kind != FAULT_START;
}

static bool is_none(const struct fault *fault)
{
    return fault->kind == FAULT_NONE;
}

static unsigned count(const struct options *options, const struct progress *threads,
                      fault_test *test)
{
    unsigned found = 0;
    for (unsigned i = 0; i < options->threads; i++)
        found += test(&threads[i].fault);
    return found;
}

static void list(const struct options *options, const struct progress *threads,
                 fault_test *test)
{
    const char *before = count(options, threads, test) > 1 ? "threads " : "thread ";
    for (unsigned i = 0; i < options->threads; i++) {
        if (test(&threads[i].fault)) {
            printf("%s%u", before, i);
            before = ", ";
        }
    }
}

static void tell_wrong_answer(unsigned thread, const char *call, const struct fault *fault)
{
    char text[ANSWER_TEXT];
    answer_text(fault->answer, text, sizeof text);
    printf("thread %u: %s run %" PRIu64 " answered %s and not %" PRIu64 "\n", thread, call,
           fault->run, text, fault->expected);
}

static void tell_fault(const struct options *options, unsigned thread,
                       const struct fault *fault)
{
    switch (fault->kind) {
    case FAULT_NONE: break;
    case FAULT_OUT: tell_wrong_answer(thread, "on the way out,", fault); break;
    case FAULT_DIGEST: tell_wrong_answer(thread, "the digest after", fault); break;
    case FAULT_HOME: tell_wrong_answer(thread, "on the way home, undoing", fault); break;
    case FAULT_START:
        printf("thread %u: %" PRIu64 " runs out and back missed the start, first in byte "
               "%zu of V%zu%s\n",
               thread, fault->run, fault->byte % options->width,
               fault->byte / options->width,
               options->self_test ? ", as the bit flipped on purpose demands" : "");
    }
}

static void tell_way(const struct options *options, const struct progress *threads)
{
    uint64_t runs = 0, units = 0;
    double out = 0, home = 0;
    for (unsigned i = 0; i < options->threads; i++) {
        double back = threads[i].ended_at - threads[i].turned_at;
        runs += threads[i].runs;
        units += threads[i].mark.units;
        out = threads[i].turned_at > out ? threads[i].turned_at : out;
        home = back > home ? back : home;
    }
    double millions = (double)units * 1e-6;
    printf("%u thread%s, %" PRIu64 " runs, out in %.2f s (%.2f M units/s), home in %.2f s "
           "(%.2f M units/s)\n",
           options->threads, options->threads > 1 ? "s" : "", runs, out, millions / out, home,
           millions / home);
}

/* Only a signal counts: a fault that sent the others home early is told as a fault. */
static const char *early_signal(const struct options *options,
                                const struct progress *threads)
{
    for (unsigned i = 0; i < options->threads; i++)
        if (threads[i].early)
            return stop_signal_name(stop_reason());
    return NULL;
}

static int tell_home(const struct options *options, const struct progress *threads)
{
    bool failed = count(options, threads, is_fault) > 0;
    const char *signal = early_signal(options, threads);
    printf("came home: %s", failed ? "NO" : "yes");
    if (signal != NULL)
        printf(", early on %s", signal);
    printf("; ");
    if (failed) {
        printf("failed: ");
        list(options, threads, is_fault);
        printf("\n");
    } else {
        tell_way(options, threads);
    }
    return failed ? 1 : 0;
}

static int tell_self_test(const struct options *options, const struct progress *threads)
{
    bool blind = count(options, threads, is_none) > 0;
    bool wrong = count(options, threads, is_wrong_answer) > 0;
    if (!blind && !wrong) {
        printf("self-test passed: no thread found its start again, as the bit flipped on "
               "purpose demands; this is no fault of the machine\n");
        return 0;
    }
    printf("self-test FAILED: ");
    list(options, threads, wrong ? is_wrong_answer : is_none);
    printf(" %s\n", wrong ? "got a wrong answer"
                          : "found the start again in spite of the bit flipped on purpose");
    return 1;
}

int verdict(const struct options *options, const struct progress *threads)
{
    for (unsigned i = 0; i < options->threads; i++)
        tell_fault(options, i, &threads[i].fault);
    return options->self_test ? tell_self_test(options, threads)
                              : tell_home(options, threads);
}
