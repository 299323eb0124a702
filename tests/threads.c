/* A library for LD_PRELOAD: of the threads that the program starts the one with the number THREADS_REFUSE,
 * counted from 1, is refused, as where there may be no more. */
#define _GNU_SOURCE
#include <dlfcn.h>
#include <errno.h>
#include <pthread.h>
#include <stdlib.h>

/* The next definition of a call, which is the C library's. */
#define REAL(name) ((typeof(&name))dlsym(RTLD_NEXT, #name))

int pthread_create(pthread_t *thread, const pthread_attr_t *how, void *(*work)(void *), void *with) {
    static int count;
    const char *which = getenv("THREADS_REFUSE");
    if (which != NULL && __atomic_add_fetch(&count, 1, __ATOMIC_SEQ_CST) == atoi(which)) return EAGAIN;
    return REAL(pthread_create)(thread, how, work, with);
}
