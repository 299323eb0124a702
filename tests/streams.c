/* A library for LD_PRELOAD: a standard stream moves a number of bytes, and then fails.
 *
 * STREAMS_FAIL is `STREAM ROOM STEP`: each call on stream 0, 1 or 2 moves STEP bytes at most, and once ROOM bytes have
 * passed each call fails with EIO.
 */
#define _GNU_SOURCE
#include <dlfcn.h>
#include <errno.h>
#include <stdio.h>
#include <stdlib.h>
#include <unistd.h>

static long passed;

/* How many of these bytes a call may move, or -1 where it fails. */
static ssize_t allowed(int file, size_t count) {
    const char *fault = getenv("STREAMS_FAIL");
    int stream;
    long room, step;
    if (fault == NULL || sscanf(fault, "%d %ld %ld", &stream, &room, &step) != 3) return count;
    if (file != stream || count == 0) return count;
    if (passed >= room) return errno = EIO, -1;
    long most = room - passed < step ? room - passed : step;
    return count < (size_t)most ? (ssize_t)count : most;
}

static ssize_t counted(int file, ssize_t moved) {
    const char *fault = getenv("STREAMS_FAIL");
    if (fault != NULL && file == atoi(fault) && moved > 0) passed += moved;
    return moved;
}

/* The next definition of a call, which is the C library's. */
#define REAL(name) ((typeof(&name))dlsym(RTLD_NEXT, #name))

ssize_t read(int file, void *bytes, size_t count) {
    ssize_t most = allowed(file, count);
    return most < 0 ? most : counted(file, REAL(read)(file, bytes, most));
}

ssize_t write(int file, const void *bytes, size_t count) {
    ssize_t most = allowed(file, count);
    return most < 0 ? most : counted(file, REAL(write)(file, bytes, most));
}
