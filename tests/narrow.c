/* A library for LD_PRELOAD: a socket that connects holds little of what is sent, so that the sender of
 * much waits until the other end has read. */
#define _GNU_SOURCE
#include <dlfcn.h>
#include <sys/socket.h>

/* The next definition of a call, which is the C library's. */
#define REAL(name) ((typeof(&name))dlsym(RTLD_NEXT, #name))

int connect(int socket, const struct sockaddr *address, socklen_t length) {
    int least = 1;
    if (setsockopt(socket, SOL_SOCKET, SO_SNDBUF, &least, sizeof least) != 0) return -1;
    return REAL(connect)(socket, address, length);
}
