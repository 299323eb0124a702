/* A library for LD_PRELOAD: makes one of the program's calls on sockets, or on its poll, fail.
 *
 * SOCKETS_FAIL is `CALL NUMBER ERRNO`: of the calls with this name, the one with this number, counted from 1, does
 * nothing and fails. Only those are counted that come while the file SOCKETS_WHILE is there, and it is removed with the
 * failure. SOCKETS_TOLD names a file that gets a line for each `listen`, `setsockopt` and `shutdown`: its name and its
 * numbers.
 */
#define _GNU_SOURCE
#include <dlfcn.h>
#include <errno.h>
#include <fcntl.h>
#include <stdarg.h>
#include <stdio.h>
#include <stdlib.h>
#include <string.h>
#include <sys/epoll.h>
#include <sys/eventfd.h>
#include <sys/ioctl.h>
#include <sys/socket.h>
#include <unistd.h>

/* The next definition of a call, which is the C library's. */
#define REAL(name) ((typeof(&name))dlsym(RTLD_NEXT, #name))

static int number, reason, told = -1;
static char fails[32];
static const char *during;

__attribute__((constructor)) static void begin(void) {
    const char *which = getenv("SOCKETS_FAIL");
    const char *path = getenv("SOCKETS_TOLD");
    if (path != NULL) told = open(path, O_WRONLY | O_CREAT | O_APPEND | O_CLOEXEC, 0666);
    during = getenv("SOCKETS_WHILE");
    if (which == NULL || sscanf(which, "%31s %d %d", fails, &number, &reason) != 3) fails[0] = 0;
}

static int is_failed(const char *call) {
    static int count;
    if (strcmp(call, fails) != 0 || during == NULL || access(during, F_OK) != 0) return 0;
    if (__atomic_add_fetch(&count, 1, __ATOMIC_SEQ_CST) != number) return 0;
    unlink(during);
    errno = reason;
    return 1;
}

#define FAILS(name) \
    if (is_failed(#name)) return -1

#define TELLS(...) \
    if (told >= 0 && dprintf(told, __VA_ARGS__) < 0) abort()

int socket(int family, int kind, int protocol) {
    FAILS(socket);
    return REAL(socket)(family, kind, protocol);
}

int bind(int socket, const struct sockaddr *address, socklen_t length) {
    FAILS(bind);
    return REAL(bind)(socket, address, length);
}

int connect(int socket, const struct sockaddr *address, socklen_t length) {
    FAILS(connect);
    return REAL(connect)(socket, address, length);
}

int listen(int socket, int backlog) {
    TELLS("listen %d\n", backlog);
    FAILS(listen);
    return REAL(listen)(socket, backlog);
}

int getsockname(int socket, struct sockaddr *address, socklen_t *length) {
    FAILS(getsockname);
    return REAL(getsockname)(socket, address, length);
}

int epoll_create1(int flags) {
    FAILS(epoll_create1);
    return REAL(epoll_create1)(flags);
}

int eventfd(unsigned int value, int flags) {
    FAILS(eventfd);
    return REAL(eventfd)(value, flags);
}

int accept4(int listener, struct sockaddr *address, socklen_t *length, int flags) {
    FAILS(accept4);
    return REAL(accept4)(listener, address, length, flags);
}

int setsockopt(int socket, int level, int name, const void *value, socklen_t length) {
    if (length == sizeof(int)) TELLS("setsockopt %d %d %d\n", level, name, *(const int *)value);
    FAILS(setsockopt);
    return REAL(setsockopt)(socket, level, name, value, length);
}

int ioctl(int file, unsigned long request, ...) {
    va_list more;
    va_start(more, request);
    void *argument = va_arg(more, void *);
    va_end(more);
    FAILS(ioctl);
    return REAL(ioctl)(file, request, argument);
}

int epoll_ctl(int poll, int what, int file, struct epoll_event *event) {
    FAILS(epoll_ctl);
    return REAL(epoll_ctl)(poll, what, file, event);
}

int epoll_wait(int poll, struct epoll_event *events, int most, int timeout) {
    FAILS(epoll_wait);
    return REAL(epoll_wait)(poll, events, most, timeout);
}

ssize_t recv(int socket, void *bytes, size_t length, int flags) {
    FAILS(recv);
    return REAL(recv)(socket, bytes, length, flags);
}

ssize_t send(int socket, const void *bytes, size_t length, int flags) {
    FAILS(send);
    return REAL(send)(socket, bytes, length, flags);
}

int shutdown(int socket, int how) {
    TELLS("shutdown %d\n", how);
    FAILS(shutdown);
    return REAL(shutdown)(socket, how);
}
