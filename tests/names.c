/* A library for LD_PRELOAD: a name has several numbers.
 *
 * NAMES_OF is `NAME NUMBER NUMBER ..`: a look-up of NAME looks up each of these in turn, and has their results in this
 * order. Other names are the system's.
 */
#define _GNU_SOURCE
#include <dlfcn.h>
#include <netdb.h>
#include <stdlib.h>
#include <string.h>

/* The next definition of a call, which is the C library's. */
#define REAL(name) ((typeof(&name))dlsym(RTLD_NEXT, #name))

int getaddrinfo(const char *node, const char *service, const struct addrinfo *hints, struct addrinfo **found) {
    const char *which = getenv("NAMES_OF");
    char text[256], *rest = text, *number;
    strncpy(text, which == NULL ? "" : which, sizeof text - 1);
    text[sizeof text - 1] = 0;
    if (node == NULL || strcmp(strsep(&rest, " "), node) != 0) return REAL(getaddrinfo)(node, service, hints, found);
    struct addrinfo **end = found;
    while ((number = strsep(&rest, " ")) != NULL) {
        int why = REAL(getaddrinfo)(number, service, hints, end);
        if (why != 0) return why;
        while (*end != NULL) end = &(*end)->ai_next;
    }
    return 0;
}
