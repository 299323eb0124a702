/* Stands between the program and the system (LD_PRELOAD): the clock that never goes back is ahead by as many seconds as
 * the file CLOCK_AHEAD has bytes, so that a test needn't wait for hours. Sleeps and waits take the time that they are
 * for. */
#define _GNU_SOURCE
#include <dlfcn.h>
#include <stdlib.h>
#include <sys/stat.h>
#include <time.h>

/* The next definition of a call, which is the C library's. */
#define REAL(name) ((typeof(&name))dlsym(RTLD_NEXT, #name))

int clock_gettime(clockid_t clock, struct timespec *now) {
    struct stat ahead;
    const char *file = getenv("CLOCK_AHEAD");
    int failed = REAL(clock_gettime)(clock, now);
    if (failed == 0 && clock == CLOCK_MONOTONIC && file != NULL && stat(file, &ahead) == 0)
        now->tv_sec += ahead.st_size;
    return failed;
}
