/* A library for LD_PRELOAD: where an update's time goes in a server that one writer asks.
 *
 * STAGES names a file that gets, as numbers of 8 bytes, how many replies there were, and the nanoseconds of all updates
 * from the read of a request to the first write of the file; in writes; in flushes; from the last flush to the reply;
 * and in sending it.
 */
#define _GNU_SOURCE
#include <dlfcn.h>
#include <fcntl.h>
#include <stdlib.h>
#include <sys/mman.h>
#include <sys/socket.h>
#include <time.h>
#include <unistd.h>

enum { COUNT, BEFORE, WRITES, FLUSHES, AFTER, SENDING, ALL };

/* One update is under way at a time, so one thread after another touches these. */
static volatile long long *noted, last;

#define REAL(name) ((typeof(&name))dlsym(RTLD_NEXT, #name))

__attribute__((constructor)) static void begin(void) {
    int file = open(getenv("STAGES"), O_RDWR | O_CREAT, 0666);
    if (file < 0 || ftruncate(file, ALL * sizeof *noted) != 0) abort();
    noted = mmap(NULL, ALL * sizeof *noted, PROT_READ | PROT_WRITE, MAP_SHARED, file, 0);
    if (noted == MAP_FAILED) abort();
}

static int stage;

/* The nanoseconds since the last call of this. */
static long long passed(void) {
    struct timespec time;
    clock_gettime(CLOCK_MONOTONIC, &time);
    long long before = last;
    last = time.tv_sec * 1000000000LL + time.tv_nsec;
    return last - before;
}

ssize_t recv(int stream, void *bytes, size_t count, int flags) {
    ssize_t came = REAL(recv)(stream, bytes, count, flags);
    if (came > 0) passed(), stage = BEFORE;
    return came;
}

ssize_t pwrite(int file, const void *bytes, size_t count, off_t place) {
    noted[stage] += passed(), stage = WRITES;
    ssize_t went = REAL(pwrite)(file, bytes, count, place);
    noted[WRITES] += passed();
    return went;
}

int fdatasync(int file) {
    noted[stage] += passed(), stage = WRITES;
    int status = REAL(fdatasync)(file);
    noted[FLUSHES] += passed();
    return status;
}

ssize_t send(int stream, const void *bytes, size_t count, int flags) {
    noted[AFTER] += passed();
    ssize_t went = REAL(send)(stream, bytes, count, flags);
    noted[SENDING] += passed(), noted[COUNT]++;
    return went;
}
