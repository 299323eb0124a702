/* A library for LD_PRELOAD: a sleep takes a thousandth of the time that it is for, so that a test
 * needn't wait for minutes. Waits for sockets, and clocks, are as they were. */
#define _GNU_SOURCE
#include <dlfcn.h>
#include <time.h>

/* The next definition of a call, which is the C library's. */
#define REAL(name) ((typeof(&name))dlsym(RTLD_NEXT, #name))

static struct timespec shorter(const struct timespec *time) {
    long long all = (time->tv_sec * 1000000000LL + time->tv_nsec) / 1000;
    return (struct timespec){.tv_sec = all / 1000000000LL, .tv_nsec = all % 1000000000LL};
}

int nanosleep(const struct timespec *time, struct timespec *left) {
    struct timespec part = shorter(time);
    return REAL(nanosleep)(&part, left);
}

int clock_nanosleep(clockid_t clock, int flags, const struct timespec *time, struct timespec *left) {
    if (flags & TIMER_ABSTIME) return REAL(clock_nanosleep)(clock, flags, time, left);
    struct timespec part = shorter(time);
    return REAL(clock_nanosleep)(clock, flags, &part, left);
}
