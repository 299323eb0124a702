/* A library for LD_PRELOAD: counts the connections that couldn't be accepted, and refuses some.
 *
 * ACCEPTS_FAILED names a file that gets one byte for each call that failed. It is opened at the start, since a program
 * that has no descriptor left couldn't open it. ACCEPTS_REFUSE is `FIRST COUNT ERRNO`: COUNT calls from number FIRST
 * on, counted from 1, fail with ERRNO and do nothing.
 */
#define _GNU_SOURCE
#include <dlfcn.h>
#include <errno.h>
#include <fcntl.h>
#include <stdio.h>
#include <stdlib.h>
#include <sys/socket.h>
#include <unistd.h>

/* The next definition of a call, which is the C library's. */
#define REAL(name) ((typeof(&name))dlsym(RTLD_NEXT, #name))

static int failed = -1;

__attribute__((constructor)) static void begin(void) {
    const char *path = getenv("ACCEPTS_FAILED");
    if (path != NULL) failed = open(path, O_WRONLY | O_CREAT | O_APPEND | O_CLOEXEC, 0666);
}

/* The error of a call that is refused, or 0. */
static int refused(void) {
    static int calls;
    int first = 0, count = 0, why = 0;
    const char *which = getenv("ACCEPTS_REFUSE");
    calls++;
    if (which == NULL || sscanf(which, "%d %d %d", &first, &count, &why) != 3) return 0;
    return first <= calls && calls < first + count ? why : 0;
}

/* What the call is to give; one that has failed is noted. */
static int noted(int result) {
    int why = errno;
    if (result < 0 && why != EAGAIN && why != EINTR && failed >= 0 && write(failed, "x", 1) < 0) abort();
    errno = why;
    return result;
}

int accept4(int listener, struct sockaddr *address, socklen_t *length, int flags) {
    int why = refused();
    if (why != 0) return errno = why, noted(-1);
    return noted(REAL(accept4)(listener, address, length, flags));
}

int accept(int listener, struct sockaddr *address, socklen_t *length) {
    int why = refused();
    if (why != 0) return errno = why, noted(-1);
    return noted(REAL(accept)(listener, address, length));
}
