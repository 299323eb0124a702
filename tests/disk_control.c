/* A library for LD_PRELOAD: while the program runs, its calls on some files fail or wait.
 *
 * DISK_CONTROL names a file that is read at each call on a file that was opened. A line of it is `NAME CALL WHAT MORE`:
 * of the file whose path ends by NAME, each CALL, which is `write`, `sync` or `read`, does this:
 *   fail ERRNO    it does nothing and fails
 *   torn ERRNO    half of a write's bytes are written, and then it fails
 *   hold 0        it makes the file DISK_CONTROL.held, and waits until DISK_CONTROL says so no more
 *   rest MICROS   it rests so long, and then is made
 */
#define _GNU_SOURCE
#include <dlfcn.h>
#include <errno.h>
#include <fcntl.h>
#include <stdarg.h>
#include <stdio.h>
#include <stdlib.h>
#include <string.h>
#include <sys/stat.h>
#include <sys/types.h>
#include <time.h>
#include <unistd.h>

enum { MOST_FILES = 4096, NAME = 64 };

static char names[MOST_FILES][NAME];

/* The next definition of a call, which is the C library's. */
#define REAL(name) ((typeof(&name))dlsym(RTLD_NEXT, #name))

static int ends_by(const char *path, const char *name) {
    size_t length = strlen(path), end = strlen(name);
    return length >= end && strcmp(path + length - end, name) == 0;
}

/* What the control says of this call, and its number; "" where it says nothing. */
static const char *said(int file, const char *call, char what[NAME], long *more) {
    char text[4096], *line, *rest = text, name[NAME], its[NAME];
    const char *path = getenv("DISK_CONTROL");
    int control = path == NULL ? -1 : REAL(open)(path, O_RDONLY | O_CLOEXEC);
    ssize_t length = control < 0 ? 0 : read(control, text, sizeof text - 1);
    if (control >= 0) close(control);
    text[length < 0 ? 0 : length] = 0;
    while ((line = strsep(&rest, "\n")) != NULL)
        if (sscanf(line, "%63s %63s %63s %ld", name, its, what, more) == 4 && strcmp(its, call) == 0 &&
            ends_by(names[file], name))
            return what;
    return "";
}

static void rest(long micros) {
    struct timespec time = {micros / 1000000, micros % 1000000 * 1000};
    nanosleep(&time, NULL);
}

static void tell_of_hold(void) {
    char path[4096];
    snprintf(path, sizeof path, "%s.held", getenv("DISK_CONTROL"));
    int file = REAL(open)(path, O_WRONLY | O_CREAT | O_CLOEXEC, 0666);
    if (file >= 0) close(file);
}

/* What the control file is: one that says something else is another file, or was written since. To ask takes no
 * descriptor, of which there may be none left. */
static struct stat control_now(void) {
    struct stat now;
    const char *path = getenv("DISK_CONTROL");
    memset(&now, 0, sizeof now);
    if (path != NULL && stat(path, &now) != 0) now.st_ino = 0;
    return now;
}

static int is_as_before(struct stat before) {
    struct stat now = control_now();
    return now.st_ino == before.st_ino && now.st_size == before.st_size &&
           now.st_mtim.tv_sec == before.st_mtim.tv_sec && now.st_mtim.tv_nsec == before.st_mtim.tv_nsec;
}

static void wait_while_held(int file, const char *call) {
    char what[NAME];
    long more;
    for (;;) {
        struct stat before = control_now();
        if (strcmp(said(file, call, what, &more), "hold") != 0) return;
        while (is_as_before(before)) rest(1000);
    }
}

/* Waits as long as it is to. Then: -1 the call is to fail, with `errno`; 1 half of it is to be made before;
 * 0 it is made. */
static int controlled(int file, const char *call) {
    char what[NAME];
    long more = 0;
    if (file < 0 || file >= MOST_FILES || names[file][0] == 0) return 0;
    if (strcmp(said(file, call, what, &more), "hold") == 0) tell_of_hold();
    wait_while_held(file, call);
    const char *now = said(file, call, what, &more);
    if (strcmp(now, "rest") == 0) rest(more);
    if (strcmp(now, "fail") != 0 && strcmp(now, "torn") != 0) return 0;
    errno = (int)more;
    return strcmp(now, "fail") == 0 ? -1 : 1;
}

int open(const char *path, int flags, ...) {
    va_list more;
    va_start(more, flags);
    int mode = (flags & O_CREAT) ? va_arg(more, int) : 0;
    va_end(more);
    int file = REAL(open)(path, flags, mode);
    if (file >= 0 && file < MOST_FILES) {
        size_t length = strlen(path);
        strcpy(names[file], length < NAME ? path : path + length - NAME + 1);
    }
    return file;
}

ssize_t pread(int file, void *bytes, size_t count, off_t at) {
    return controlled(file, "read") ? -1 : REAL(pread)(file, bytes, count, at);
}

ssize_t pwrite(int file, const void *bytes, size_t count, off_t at) {
    int how = controlled(file, "write"), why = errno;
    if (how == 1 && REAL(pwrite)(file, bytes, count / 2, at) < 0) return -1;
    errno = why;
    return how != 0 ? -1 : REAL(pwrite)(file, bytes, count, at);
}

int fdatasync(int file) { return controlled(file, "sync") ? -1 : REAL(fdatasync)(file); }

int fsync(int file) { return controlled(file, "sync") ? -1 : REAL(fsync)(file); }

/* The same calls by the names that programs with large files may know them by. */
int open64(const char *path, int flags, ...) __attribute__((alias("open")));
ssize_t pread64(int file, void *bytes, size_t count, off64_t at) __attribute__((alias("pread")));
ssize_t pwrite64(int file, const void *bytes, size_t count, off64_t at) __attribute__((alias("pwrite")));
