/* A library for LD_PRELOAD: each flush of a file takes FLUSH_US microseconds at least, those of several threads side by
 * side. */
#define _GNU_SOURCE
#include <dlfcn.h>
#include <errno.h>
#include <stdlib.h>
#include <sys/prctl.h>
#include <time.h>

static int slowed(int (*flush)(int), int file) {
    struct timespec due;
    const char *words = getenv("FLUSH_US");
    long micros = words == NULL ? 0 : atol(words);
    clock_gettime(CLOCK_MONOTONIC, &due);
    due.tv_nsec += micros % 1000000 * 1000;
    due.tv_sec += micros / 1000000 + due.tv_nsec / 1000000000;
    due.tv_nsec %= 1000000000;
    int status = flush(file), why = errno;
    /* Without this a sleep ends 50 microseconds late. */
    prctl(PR_SET_TIMERSLACK, 1);
    if (micros > 0)
        while (clock_nanosleep(CLOCK_MONOTONIC, TIMER_ABSTIME, &due, NULL) == EINTR) continue;
    errno = why;
    return status;
}

int fdatasync(int file) {
    return slowed((int (*)(int))dlsym(RTLD_NEXT, "fdatasync"), file);
}

int fsync(int file) {
    return slowed((int (*)(int))dlsym(RTLD_NEXT, "fsync"), file);
}
