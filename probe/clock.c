#define _POSIX_C_SOURCE 200809L

#include "clock.h"

static const double nanoseconds = 1e9;

struct timespec clock_now(void)
{
    struct timespec now;
    clock_gettime(CLOCK_MONOTONIC, &now);
    return now;
}

double clock_since(const struct timespec *then)
{
    struct timespec now = clock_now();
    return (double)(now.tv_sec - then->tv_sec) +
           (double)(now.tv_nsec - then->tv_nsec) / nanoseconds;
}

void clock_sleep(double seconds)
{
    struct timespec time;
    time.tv_sec = (time_t)seconds;
    time.tv_nsec = (long)((seconds - (double)time.tv_sec) * nanoseconds);
    nanosleep(&time, NULL);
}
