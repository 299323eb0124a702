/* A library for LD_PRELOAD: records what the program does to one file, and makes a call fail.
 *
 * RECORDER_FILE is the name of the file, as the program is given it. RECORDER_LOG gets a line for each of its calls
 * that changes or syncs the file: `write OFFSET HEX`, `length N` or `sync`, each once it has succeeded.
 *
 * RECORDER_FAULT is `N KIND`: at the Nth call on the file (reads count too), which is counted from 1,
 *   fail        the call fails with EIO and does nothing
 *   short       a read or a write moves half of its bytes, at least one
 *   none        a read or a write moves no byte
 *   interrupt   the call fails with EINTR and does nothing
 *   kill        the process is killed before the call
 *   torn        half of a write's bytes are written, and then the process is killed
 */
#define _GNU_SOURCE
#include <dlfcn.h>
#include <errno.h>
#include <fcntl.h>
#include <signal.h>
#include <stdarg.h>
#include <stdio.h>
#include <stdlib.h>
#include <string.h>
#include <sys/types.h>
#include <unistd.h>

static int watched = -1;
static int calls = 0;

static const char *fault_now(void) {
    static char kind[16];
    const char *fault = getenv("RECORDER_FAULT");
    int at = 0;
    calls++;
    if (fault == NULL || sscanf(fault, "%d %15s", &at, kind) != 2 || at != calls) return "";
    if (strcmp(kind, "kill") == 0) kill(getpid(), SIGKILL);
    return kind;
}

static FILE *log_file(void) {
    static FILE *log = NULL;
    const char *path = getenv("RECORDER_LOG");
    if (log == NULL && path != NULL) log = fopen(path, "ae");
    return log;
}

static void note(const char *what, off_t at, const unsigned char *bytes, size_t count) {
    FILE *log = log_file();
    if (log == NULL) return;
    if (bytes == NULL) {
        fprintf(log, "%s %lld\n", what, (long long)at);
    } else {
        fprintf(log, "%s %lld ", what, (long long)at);
        for (size_t i = 0; i < count; i++) fprintf(log, "%02x", bytes[i]);
        fprintf(log, "\n");
    }
    fflush(log);
}

/* The next definition of a call, which is the C library's. */
#define REAL(name) ((typeof(&name))dlsym(RTLD_NEXT, #name))

int open(const char *path, int flags, ...) {
    va_list more;
    va_start(more, flags);
    int mode = (flags & O_CREAT) ? va_arg(more, int) : 0;
    va_end(more);
    int file = REAL(open)(path, flags, mode);
    const char *name = getenv("RECORDER_FILE");
    if (file >= 0 && name != NULL && strcmp(path, name) == 0) watched = file;
    return file;
}

ssize_t pread(int file, void *bytes, size_t count, off_t at) {
    if (file != watched) return REAL(pread)(file, bytes, count, at);
    const char *fault = fault_now();
    if (strcmp(fault, "fail") == 0) return errno = EIO, -1;
    if (strcmp(fault, "interrupt") == 0) return errno = EINTR, -1;
    if (strcmp(fault, "none") == 0) return 0;
    if (strcmp(fault, "short") == 0) count = count / 2 + 1;
    return REAL(pread)(file, bytes, count, at);
}

ssize_t pwrite(int file, const void *bytes, size_t count, off_t at) {
    if (file != watched) return REAL(pwrite)(file, bytes, count, at);
    const char *fault = fault_now();
    if (strcmp(fault, "fail") == 0) return errno = EIO, -1;
    if (strcmp(fault, "interrupt") == 0) return errno = EINTR, -1;
    if (strcmp(fault, "none") == 0) return 0;
    if (strcmp(fault, "short") == 0 || strcmp(fault, "torn") == 0) count = count / 2 + (count == 1);
    ssize_t written = REAL(pwrite)(file, bytes, count, at);
    if (strcmp(fault, "torn") == 0) kill(getpid(), SIGKILL);
    if (written > 0) note("write", at, bytes, written);
    return written;
}

static int change(int (*real)(int), int file) {
    if (file != watched) return real(file);
    const char *fault = fault_now();
    if (strcmp(fault, "fail") == 0) return errno = EIO, -1;
    if (strcmp(fault, "interrupt") == 0) return errno = EINTR, -1;
    int result = real(file);
    if (result == 0) note("sync", 0, NULL, 0);
    return result;
}

int fdatasync(int file) { return change(REAL(fdatasync), file); }

int fsync(int file) { return change(REAL(fsync), file); }

int ftruncate(int file, off_t length) {
    int result = REAL(ftruncate)(file, length);
    if (file == watched && result == 0) note("length", length, NULL, 0);
    return result;
}
