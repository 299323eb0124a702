/* A library for LD_PRELOAD: counts the allocations, and refuses one of them.
 *
 * ALLOCATIONS_REFUSE is the number of the one that is refused, counted from 1, or `all`. ALLOCATIONS_COUNT is a file
 * that gets the count at the program's end. With ALLOCATIONS_WHILE, a file, only those are counted and refused that
 * come while it is there, and it is removed with the refusal of the one.
 */
#define _GNU_SOURCE
#include <dlfcn.h>
#include <fcntl.h>
#include <stddef.h>
#include <stdlib.h>
#include <string.h>
#include <sys/syscall.h>
#include <unistd.h>

enum { NONE = 0, ALL = -1, UNKNOWN = -2 };

static long count, refused = UNKNOWN;
static const char *during;

static int is_refused(void) {
    if (refused == UNKNOWN) {
        const char *number = getenv("ALLOCATIONS_REFUSE");
        during = getenv("ALLOCATIONS_WHILE");
        refused = number == NULL ? NONE : strcmp(number, "all") == 0 ? ALL : atol(number);
    }
    if (during != NULL && access(during, F_OK) != 0) return 0;
    long mine = __atomic_add_fetch(&count, 1, __ATOMIC_SEQ_CST);
    if (during != NULL && mine == refused) unlink(during);
    return refused == ALL || mine == refused;
}

void *malloc(size_t size) {
    static void *(*real)(size_t);
    if (real == NULL) real = (void *(*)(size_t))dlsym(RTLD_NEXT, "malloc");
    return is_refused() ? NULL : real(size);
}

void *realloc(void *old, size_t size) {
    static void *(*real)(void *, size_t);
    if (real == NULL) real = (void *(*)(void *, size_t))dlsym(RTLD_NEXT, "realloc");
    return is_refused() ? NULL : real(old, size);
}

__attribute__((destructor)) static void tell(void) {
    const char *path = getenv("ALLOCATIONS_COUNT");
    int file = path == NULL ? -1 : open(path, O_WRONLY | O_CREAT | O_TRUNC, 0666);
    char digits[24];
    int at = sizeof digits;
    if (file < 0) return;
    for (long left = count; at == sizeof digits || left > 0; left /= 10) digits[--at] = '0' + left % 10;
    if (write(file, digits + at, sizeof digits - at) < 0) syscall(SYS_exit_group, 1);
    close(file);
}

/* A program that may start threads ends by this, and no destructor runs then. */
void _exit(int status) {
    tell();
    for (;;) syscall(SYS_exit_group, status);
}
