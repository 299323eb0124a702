/* Calls of the client in C, one after another, on a system with a given behaviour.
 *
 *     strains SYSTEM HOST PORT TRIES STEP ..
 *
 * SYSTEM is `plain`, or one in which each send and each receive passes on one byte (`short`), in which of each kind of
 * call every other one does nothing and ends by EINTR (`interrupted`; a connection is still being made), or in which a
 * send waits until the peer has closed (`gone`).
 *
 * A STEP is one word: it prints the result of its call, its number, and the error. `get`, `put`, `update`, `wait` (for
 * a minute), `lag` (a wait for 50 ms) and `fill` (a number of bytes) take their numbers after a colon: `update:1:4`.
 * What is put and updated is the value that was read or filled last. `stray` waits for unrequested bytes or an end,
 * `rest` rests for 50 ms and prints how many passed, `later` lets two minutes pass by the clock, and `exec` becomes a
 * program that lists the descriptors it has.
 */
#define _POSIX_C_SOURCE 200809L
#include <arpa/inet.h>
#include <errno.h>
#include <fcntl.h>
#include <inttypes.h>
#include <netinet/tcp.h>
#include <poll.h>
#include <stdio.h>
#include <stdlib.h>
#include <string.h>
#include <sys/socket.h>
#include <sys/un.h>
#include <time.h>
#include <unistd.h>

static int is_short, is_interrupted, is_gone;

/* Whether this call of its kind, of which the first is interrupted, does nothing. */
static int ends_early(int *calls)
{
    errno = EINTR;
    return is_interrupted && (*calls)++ % 2 == 0;
}

static int strained_connect(int connection, const struct sockaddr *address, socklen_t length)
{
    static int calls;
    int result = connect(connection, address, length);
    return ends_early(&calls) ? -1 : result;
}

static int strained_poll(struct pollfd *of, nfds_t count, int timeout)
{
    static int calls;
    return ends_early(&calls) ? -1 : poll(of, count, timeout);
}

static time_t passed;

static int strained_clock_gettime(clockid_t clock, struct timespec *now)
{
    int result = clock_gettime(clock, now);
    now->tv_sec += passed;
    return result;
}

static int strained_nanosleep(const struct timespec *time, struct timespec *left)
{
    static int calls;
    struct timespec all = *time;
    if (!ends_early(&calls))
        return nanosleep(time, left);
    if (left != NULL)
        *left = all;
    return -1;
}

static ssize_t strained_recv(int connection, void *bytes, size_t length, int flags)
{
    static int calls;
    return ends_early(&calls) ? -1 : recv(connection, bytes, is_short && length > 1 ? 1 : length, flags);
}

/* The first byte that a message has left, alone. */
static struct iovec first_of(const struct msghdr *message)
{
    struct iovec one = message->msg_iov[message->msg_iov[0].iov_len == 0];
    one.iov_len = 1;
    return one;
}

static ssize_t strained_sendmsg(int connection, const struct msghdr *message, int flags)
{
    static int calls, sent;
    /* The peer's end comes first, and then that it takes nothing more: only the latter is an event that is always
     * reported. */
    struct pollfd end = {connection, sent++ == 0 ? POLLIN : 0, 0};
    struct iovec one = first_of(message);
    struct msghdr less = *message;
    if (ends_early(&calls))
        return -1;
    if (is_gone)
        poll(&end, 1, 60000);
    if (is_gone || is_short) {
        less.msg_iov = &one;
        less.msg_iovlen = 1;
    }
    return sendmsg(connection, &less, flags);
}

#define connect strained_connect
#define poll strained_poll
#define clock_gettime strained_clock_gettime
#define nanosleep strained_nanosleep
#define recv strained_recv
#define sendmsg strained_sendmsg
#include "snapd_segment.h"

static snapd_client client;
static snapd_entry held;

static snapd_result wait_for(unsigned segment, uint64_t number, int timeout, uint64_t *seen)
{
    uint64_t wanted[SNAPD_MAX_SEGMENTS] = {0};
    snapd_status_list list;
    snapd_result result;
    wanted[segment] = number;
    result = snapd_wait(&client, 1U << segment, wanted, timeout, &list);
    *seen = list.standing[segment].number;
    return result;
}

/* Does one step; *number is the number after its segment, and then that of the result. */
static snapd_result done(const char *step, unsigned segment, uint64_t *number)
{
    static unsigned char filled[SNAPD_MAX_SENT];
    snapd_status_list list;
    snapd_result result = SNAPD_OK;
    if (strcmp(step, "get") == 0) {
        result = snapd_get(&client, segment, &held);
        *number = held.number;
    } else if (strcmp(step, "put") == 0) {
        result = snapd_put(&client, segment, held.value, held.length, number);
    } else if (strcmp(step, "update") == 0) {
        result = snapd_update(&client, segment, *number, held.value, held.length, number);
    } else if (strcmp(step, "status") == 0) {
        result = snapd_status(&client, &list);
    } else if (strcmp(step, "wait") == 0 || strcmp(step, "lag") == 0) {
        result = wait_for(segment, *number, step[0] == 'w' ? 60000 : 50, number);
    } else if (strcmp(step, "fill") == 0) {
        held.length = (uint32_t)segment;
        held.value = memset(filled, 'v', sizeof filled);
    } else if (strcmp(step, "stray") == 0) {
        result = snapd_poll(&client, POLLIN, snapd_now() + 60000);
    } else if (strcmp(step, "rest") == 0) {
        int64_t began = snapd_now();
        snapd_rest(50);
        *number = (uint64_t)(snapd_now() - began);
    } else if (strcmp(step, "later") == 0) {
        passed += 120;
    } else {
        execlp("ls", "ls", "-l", "/proc/self/fd", (char *)NULL);
    }
    return result;
}

int main(int argc, char **argv)
{
    if (argc < 6 || snapd_open(&client, argv[2], atoi(argv[3]), 60000, atoi(argv[4])) != SNAPD_OK)
        return 2;
    is_short = strcmp(argv[1], "short") == 0;
    is_interrupted = strcmp(argv[1], "interrupted") == 0;
    is_gone = strcmp(argv[1], "gone") == 0;
    for (int i = 5; i < argc; i++) {
        char step[16] = "";
        unsigned segment = 0;
        uint64_t number = 0;
        snapd_result result;
        sscanf(argv[i], "%15[^:]:%u:%" SCNu64, step, &segment, &number);
        result = done(step, segment, &number);
        printf("%s %d %" PRIu64 " %d\n", argv[i], (int)result, number, client.error);
        fflush(stdout);
    }
    snapd_close(&client);
    return 0;
}
