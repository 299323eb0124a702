/* A library for LD_PRELOAD: a host name has two addresses.
 *
 * LOOKUPS is `NAME FIRST SECOND`: a look-up of that name finds these two addresses, in this order.
 */
#define _GNU_SOURCE
#include <dlfcn.h>
#include <netdb.h>
#include <stdio.h>
#include <stdlib.h>
#include <string.h>

/* The next definition of a call, which is the C library's. */
#define REAL(name) ((typeof(&name))dlsym(RTLD_NEXT, #name))

int getaddrinfo(const char *host, const char *service, const struct addrinfo *hints, struct addrinfo **found) {
    const char *which = getenv("LOOKUPS");
    char name[64], first[64], second[64];
    if (host == NULL || which == NULL || sscanf(which, "%63s %63s %63s", name, first, second) != 3 ||
        strcmp(host, name) != 0)
        return REAL(getaddrinfo)(host, service, hints, found);
    int failed = REAL(getaddrinfo)(first, service, hints, found);
    if (failed != 0) return failed;
    struct addrinfo *last = *found;
    while (last->ai_next != NULL) last = last->ai_next;
    failed = REAL(getaddrinfo)(second, service, hints, &last->ai_next);
    if (failed != 0) freeaddrinfo(*found);
    return failed;
}
