#define _POSIX_C_SOURCE 200809L

#include "stop.h"

#include <signal.h>
#include <stdatomic.h>
#include <stddef.h>

#if ATOMIC_INT_LOCK_FREE != 2
#error "a signal handler may write an atomic int only where it needs no lock"
#endif

static atomic_int first_reason = STOP_NONE;

void stop_ask(int reason)
{
    int none = STOP_NONE;
    atomic_compare_exchange_strong(&first_reason, &none, reason);
}

int stop_reason(void)
{
    return atomic_load(&first_reason);
}

const char *stop_signal_name(int reason)
{
    switch (reason) {
    case SIGINT: return "SIGINT";
    case SIGTERM: return "SIGTERM";
    default: return NULL;
    }
}

void stop_catch_signals(void)
{
    struct sigaction action = {.sa_handler = stop_ask, .sa_flags = SA_RESETHAND | SA_RESTART};
    sigemptyset(&action.sa_mask);
    sigaction(SIGINT, &action, NULL);
    sigaction(SIGTERM, &action, NULL);
    action = (struct sigaction){.sa_handler = SIG_IGN};
    sigaction(SIGPIPE, &action, NULL);
}
