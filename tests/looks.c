/* A library for LD_PRELOAD: the file LOOKS_LOG gets a byte for each check by a path other than `.` that ends in a
 * digit: of a segment's file. */
#define _GNU_SOURCE
#include <ctype.h>
#include <dlfcn.h>
#include <fcntl.h>
#include <stdlib.h>
#include <string.h>
#include <sys/stat.h>
#include <unistd.h>

/* The next definition of a call, which is the C library's. */
#define REAL(name) ((typeof(&name))dlsym(RTLD_NEXT, #name))

int statx(int folder, const char *restrict path, int flags, unsigned int mask, struct statx *restrict found) {
    size_t length = strlen(path);
    const char *log = getenv("LOOKS_LOG");
    if (log != NULL && length > 0 && isdigit((unsigned char)path[length - 1])) {
        int to = open(log, O_WRONLY | O_CREAT | O_APPEND | O_CLOEXEC, 0600);
        if (to >= 0) {
            if (write(to, ".", 1) != 1) abort();
            close(to);
        }
    }
    return REAL(statx)(folder, path, flags, mask, found);
}
