/* A library for LD_PRELOAD: locks of files. FLOCKS is the errno with which each call fails, or 0, and
 * then each succeeds and excludes nothing. */
#include <errno.h>
#include <stdlib.h>
#include <sys/file.h>

int flock(int file, int how) {
    (void)file;
    (void)how;
    const char *why = getenv("FLOCKS");
    errno = why == NULL ? 0 : atoi(why);
    return errno == 0 ? 0 : -1;
}
