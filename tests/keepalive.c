/* A library for LD_PRELOAD: how long a peer may be silent before the system asks whether it is there,
 * and the rest between two such questions, are a sixtieth of what the program says, and a second at least. How many
 * questions go without an answer stays. */
#define _GNU_SOURCE
#include <dlfcn.h>
#include <netinet/in.h>
#include <netinet/tcp.h>
#include <string.h>
#include <sys/socket.h>

/* The next definition of a call, which is the C library's. */
#define REAL(name) ((typeof(&name))dlsym(RTLD_NEXT, #name))

int setsockopt(int socket, int level, int name, const void *value, socklen_t length) {
    int seconds;
    if (level != IPPROTO_TCP || (name != TCP_KEEPIDLE && name != TCP_KEEPINTVL) || length != sizeof seconds)
        return REAL(setsockopt)(socket, level, name, value, length);
    memcpy(&seconds, value, sizeof seconds);
    seconds = seconds < 120 ? 1 : seconds / 60;
    return REAL(setsockopt)(socket, level, name, &seconds, sizeof seconds);
}
