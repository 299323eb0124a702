/* A library for LD_PRELOAD: records the program's calls that change files and folders, and makes one fail.
 *
 * CHANGES_LOG gets a line for each of these calls that succeeded, with a tab between its words:
 *   open PATH       create PATH     mkdir PATH      rename PATH PATH    unlink PATH     rmdir PATH
 *   mode PATH       owner PATH      length PATH     write PATH          sync PATH       syncdata PATH       lock PATH
 *   say NUMBER BYTES        a write to standard output (1) or error (2), in hexadecimal
 * PATH is as the program gave it, of an open file that by which it was opened.
 *
 * CHANGES_FAULT is `N WHAT`: at the Nth of these calls, counted from 1, the process is killed before it where WHAT is
 * `kill`, stopped before it until it is continued where WHAT is `stop`, and else the call does nothing and fails with
 * the error of this number.
 */
#define _GNU_SOURCE
#include <dlfcn.h>
#include <errno.h>
#include <fcntl.h>
#include <signal.h>
#include <stdarg.h>
#include <stdio.h>
#include <stdlib.h>
#include <string.h>
#include <sys/file.h>
#include <sys/stat.h>
#include <sys/types.h>
#include <unistd.h>

enum { FILES = 256, PATH = 1024 };

static char paths[FILES][PATH];
static int calls = 0;

/* The next definition of a call, which is the C library's. */
#define REAL(name) ((typeof(&name))dlsym(RTLD_NEXT, #name))

static const char *path_of(int file) { return file >= 0 && file < FILES && paths[file][0] ? paths[file] : "?"; }

/* Whether this call fails, with its error. */
static int fails(void) {
    const char *fault = getenv("CHANGES_FAULT");
    char what[16];
    int at = 0;
    calls++;
    if (fault == NULL || sscanf(fault, "%d %15s", &at, what) != 2 || at != calls) return 0;
    if (strcmp(what, "kill") == 0) kill(getpid(), SIGKILL);
    if (strcmp(what, "stop") == 0) return kill(getpid(), SIGSTOP);
    errno = atoi(what);
    return 1;
}

static FILE *log_file(void) {
    static FILE *log = NULL;
    const char *path = getenv("CHANGES_LOG");
    if (log == NULL && path != NULL) {
        int file = REAL(open)(path, O_WRONLY | O_CREAT | O_APPEND | O_CLOEXEC, 0600);
        if (file >= 0) log = fdopen(file, "a");
    }
    return log;
}

static int note(int result, const char *what, const char *first, const char *second) {
    FILE *log = result < 0 ? NULL : log_file();
    if (log == NULL) return result;
    int why = errno;
    fprintf(log, "%s\t%s%s%s\n", what, first, second == NULL ? "" : "\t", second == NULL ? "" : second);
    fflush(log);
    errno = why;
    return result;
}

int open(const char *path, int flags, ...) {
    va_list more;
    va_start(more, flags);
    int mode = (flags & O_CREAT) ? va_arg(more, int) : 0;
    va_end(more);
    int is_new = (flags & O_CREAT) && access(path, F_OK) != 0;
    if (fails()) return -1;
    int file = REAL(open)(path, flags, mode);
    if (file >= 0 && file < FILES) snprintf(paths[file], PATH, "%s", path);
    return note(file, is_new ? "create" : "open", path, NULL);
}

int mkdir(const char *path, mode_t mode) { return fails() ? -1 : note(REAL(mkdir)(path, mode), "mkdir", path, NULL); }

int rename(const char *from, const char *to) { return fails() ? -1 : note(REAL(rename)(from, to), "rename", from, to); }

int unlink(const char *path) { return fails() ? -1 : note(REAL(unlink)(path), "unlink", path, NULL); }

int rmdir(const char *path) { return fails() ? -1 : note(REAL(rmdir)(path), "rmdir", path, NULL); }

int fchmod(int file, mode_t mode) { return fails() ? -1 : note(REAL(fchmod)(file, mode), "mode", path_of(file), NULL); }

int fchown(int file, uid_t owner, gid_t group) {
    return fails() ? -1 : note(REAL(fchown)(file, owner, group), "owner", path_of(file), NULL);
}

int ftruncate(int file, off_t length) {
    return fails() ? -1 : note(REAL(ftruncate)(file, length), "length", path_of(file), NULL);
}

ssize_t pwrite(int file, const void *bytes, size_t count, off_t at) {
    if (fails()) return -1;
    ssize_t written = REAL(pwrite)(file, bytes, count, at);
    note(written < 0 ? -1 : 0, "write", path_of(file), NULL);
    return written;
}

int flock(int file, int how) { return fails() ? -1 : note(REAL(flock)(file, how), "lock", path_of(file), NULL); }

int fsync(int file) { return fails() ? -1 : note(REAL(fsync)(file), "sync", path_of(file), NULL); }

int fdatasync(int file) { return fails() ? -1 : note(REAL(fdatasync)(file), "syncdata", path_of(file), NULL); }

ssize_t write(int file, const void *bytes, size_t count) {
    if (file != 1 && file != 2) return REAL(write)(file, bytes, count);
    if (fails()) return -1;
    ssize_t written = REAL(write)(file, bytes, count);
    char hex[2 * PATH + 1] = "";
    for (ssize_t i = 0; i < written && i < PATH; i++) sprintf(hex + 2 * i, "%02x", ((const unsigned char *)bytes)[i]);
    note(written < 0 ? -1 : 0, "say", file == 1 ? "1" : "2", hex);
    return written;
}
