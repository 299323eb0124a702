/* snapd.h: a client of the snapd server in one header. C99 and POSIX sockets; it allocates nothing. Only the system
 * may, where snapd_open looks up a host name.
 *
 * It speaks with `snapd serve` in the frames of docs/FORMATS.md, "Frames and messages". snapd_segment.h beside it has
 * calls on one segment, and a wait for numbers.
 *
 *     #define _POSIX_C_SOURCE 200809L     // before the first include of a file that is compiled with -std=c99
 *     #include "snapd.h"
 *
 *     static snapd_client client;         // about 67 KB: keep it off a small stack
 *     snapd_snapshot now;
 *     uint64_t stored;
 *     snapd_open(&client, "127.0.0.1", 7070, 5000, 3);
 *     if (snapd_scan(&client, &now) == SNAPD_OK
 *         && snapd_update(&client, 0, now.entry[0].number + 1, "step 17", 7, &stored) == SNAPD_OK)
 *         ...                             // it is on the server's disk
 *     snapd_close(&client);
 *
 * A call connects if there is no connection. If the connection fails, ends or is silent for the timeout, the call is
 * tried again on a new one, with the same bytes: an update under one number is stored once, however often it is sent. A
 * value that a scan or a get returns is within the client. It is valid until the client's next snapd_scan,
 * snapd_scan_some or snapd_get, whatever its result. All other calls leave it, so it may be stored again.
 *
 * One thread at a time uses a client, and snapd_close is such a use. A process that is forked off makes a connection of
 * its own, and a program that is executed inherits none. Signals shorten no call and no rest, and it never raises
 * SIGPIPE.
 *
 * All functions are static and inline. With SNAPD_LINKED defined before the include they are only declared: link with
 * libsnapd, or compile snapd.c with the program.
 *
 * Its licence is the file LICENSE of the snapd repository. Where there is none, all rights are reserved.
 */
#ifndef SNAPD_H
#define SNAPD_H

#include <arpa/inet.h>
#include <errno.h>
#include <fcntl.h>
#include <netdb.h>
#include <netinet/in.h>
#include <netinet/tcp.h>
#include <poll.h>
#include <stddef.h>
#include <stdint.h>
#include <string.h>
#include <sys/socket.h>
#include <sys/types.h>
#include <sys/uio.h>
#include <sys/un.h>
#include <time.h>
#include <unistd.h>

#if !defined AI_NUMERICHOST || !defined MSG_NOSIGNAL
#error "snapd.h needs POSIX: define _POSIX_C_SOURCE 200809L before the first include"
#endif

/* SNAPD_IMPLEMENTATION is for snapd.c, which has the functions of the library. */
#if defined SNAPD_IMPLEMENTATION || defined SNAPD_LINKED
#define SNAPD_API
#else
#define SNAPD_API static inline
#endif

#ifdef __cplusplus
extern "C" {
#endif

/* The version of this header. A server of any version answers it. */
#define SNAPD_VERSION "0.2.0"

enum {
    SNAPD_MAX_SEGMENTS = 16,
    SNAPD_MAX_VALUE = 4080,                  /* a longer value is refused */
    SNAPD_MAX_PAYLOAD = 66000,
    SNAPD_MAX_SENT = SNAPD_MAX_PAYLOAD - 10, /* a longer value can't be sent */
    SNAPD_MAX_ADDRESSES = 4                  /* of a host name; others aren't used */
};

/* How a call ended. After anything but SNAPD_OK and SNAPD_REFUSED an update may have been stored all the same: send it
 * again with the same number and value. */
typedef enum {
    SNAPD_OK = 0,
    SNAPD_REFUSED,      /* the server said no: refusal and detail of the client say why */
    SNAPD_NOT_ANSWERED, /* no try had an answer: error of the client is the last errno, or 0 where the server hung up */
    SNAPD_TIMED_OUT,    /* the last try had no whole answer within the timeout */
    SNAPD_BAD_REPLY,    /* what came isn't an answer to the request, or says that another number was stored than was
                         * sent, or has other segments than were named. It isn't tried again: check the address, and
                         * scan */
    SNAPD_BAD_CALL,     /* a value, a mask or an address that no message or socket can say; nothing was sent */
    SNAPD_NO_ADDRESS    /* snapd_open found no address of the host name; nothing was sent */
} snapd_result;

/* Why a request was refused. */
typedef enum {
    SNAPD_MALFORMED = 1,
    SNAPD_NO_SEGMENT = 2,     /* detail: how many segments there are */
    SNAPD_TOO_LONG = 3,       /* detail: the value's length */
    SNAPD_CONFLICT = 4,       /* the number is there with another value; detail of 4, 5, 6, 7, 9, 13, 17: the
                               * segment's number */
    SNAPD_OUT_OF_STEP = 5,    /* an update takes the segment's number plus one */
    SNAPD_FENCED = 6,         /* a store failed before: check the disk, start the server again, send the update again */
    SNAPD_FULL = 7,
    SNAPD_NO_MEMORY = 8,      /* ask again */
    SNAPD_EXHAUSTED = 9,
    SNAPD_DAMAGED = 10,
    SNAPD_UNFORMATTED = 11,
    SNAPD_ALREADY_FORMATTED = 12,
    SNAPD_DEVICE_FAILED = 13, /* this store failed: as for SNAPD_FENCED */
    SNAPD_WRONG_FILE = 14,
    SNAPD_TOO_LARGE = 15,
    SNAPD_NOT_NOW = 16,
    SNAPD_WORN = 17           /* start the server again */
} snapd_refusal;

typedef struct {
    uint64_t number;
    uint32_t length;
    const unsigned char *value; /* within the client: valid until the client's next scan or get */
} snapd_entry;

/* All segments at one moment. */
typedef struct {
    int count;
    snapd_entry entry[SNAPD_MAX_SEGMENTS];
} snapd_snapshot;

/* Some segments at one moment: entry[i] is of segment i where bit i of the mask is 1, and else nothing. */
typedef struct {
    unsigned mask;
    snapd_entry entry[SNAPD_MAX_SEGMENTS];
} snapd_part;

typedef struct {
    uint64_t number;
    int fenced;
} snapd_standing;

/* The number and fence of each segment, each at a moment of its own. */
typedef struct {
    int count;
    snapd_standing standing[SNAPD_MAX_SEGMENTS];
} snapd_status_list;

typedef struct {
    struct sockaddr_storage name;
    socklen_t length;
} snapd_address;

/* Its layout is part of the library's soname. */
typedef struct {
    /* set by snapd_open */
    int addresses;
    snapd_address address[SNAPD_MAX_ADDRESSES];
    int timeout; /* milliseconds, for one try */
    int tries;
    int64_t until; /* by snapd_now: no call continues after it */
    /* the connection, or -1, and the process that made it */
    int connection;
    pid_t process;
    /* of the last call: a snapd_refusal and its detail; the system's error */
    int refusal;
    uint64_t detail;
    int error;
    /* the reply to a scan, within which its values lie; that to any other request, of which a status is the longest */
    unsigned char values[SNAPD_MAX_PAYLOAD];
    unsigned char reply[2 + 9 * SNAPD_MAX_SEGMENTS];
} snapd_client;

/* ---- the calls ---- */

/* Names the server: a numeric IPv4 or IPv6 address or a host name, and its port, or "unix:PATH" and 0 for a Unix
 * socket; the milliseconds that one try may take, and how many connections one call may make. Nothing is sent to the
 * server yet. SNAPD_BAD_CALL where a word is out of range.
 *
 * A host name is looked up here and nowhere else, by getaddrinfo, which may allocate and has no timeout.
 * SNAPD_NO_ADDRESS where it finds none. Each connection is made to the first of the addresses that accepts it, and each
 * address gets its share of the try's time. */
SNAPD_API snapd_result snapd_open(snapd_client *client, const char *host, int port, int timeout, int tries);

/* Ends the connection. A later call makes a new one. */
SNAPD_API void snapd_close(snapd_client *client);

/* Stores a value as this number of a segment. *stored is the number once it is on the server's disk, and 0 where it
 * isn't said to be. The number is the segment's plus one; the segment's own number with its own value is answered
 * again, so an update may be repeated. An answer that names another number is SNAPD_BAD_REPLY. */
SNAPD_API snapd_result snapd_update(snapd_client *client, unsigned segment, uint64_t number, const void *value,
                                    size_t length, uint64_t *stored);

/* Number and value of every segment, all of one moment between the call and its return. */
SNAPD_API snapd_result snapd_scan(snapd_client *client, snapd_snapshot *snapshot);

/* Number and value of some segments alone, all of one moment between the call and its return: bit i of the mask names
 * segment i, so 1u << 0 | 1u << 3 names the first and the fourth. It names one or more, and none above segment 15: else
 * SNAPD_BAD_CALL. A segment that the server hasn't is refused as SNAPD_NO_SEGMENT. part->mask is the mask after
 * SNAPD_OK, and else 0. A reply of other segments is SNAPD_BAD_REPLY. */
SNAPD_API snapd_result snapd_scan_some(snapd_client *client, unsigned mask, snapd_part *part);

/* Number and fence of every segment. */
SNAPD_API snapd_result snapd_status(snapd_client *client, snapd_status_list *list);

/* The name of a refusal, as snapd prints it. */
SNAPD_API const char *snapd_refusal_name(int refusal);

/* What a result is, in lower case, as "timed out". */
SNAPD_API const char *snapd_result_name(snapd_result result);

#if defined SNAPD_IMPLEMENTATION || !defined SNAPD_LINKED

/* ---- numbers: the highest byte first ---- */

static inline void snapd_write_number(unsigned char *at, uint64_t number, int bytes)
{
    for (int i = bytes - 1; i >= 0; i--, number >>= 8)
        at[i] = (unsigned char)(number & 255);
}

static inline uint64_t snapd_read_number(const unsigned char *at, int bytes)
{
    uint64_t number = 0;
    for (int i = 0; i < bytes; i++)
        number = number << 8 | at[i];
    return number;
}

/* ---- connections ---- */

static inline void snapd_add_address(snapd_client *client, const void *name, size_t length)
{
    snapd_address *address = &client->address[client->addresses];
    if (client->addresses == SNAPD_MAX_ADDRESSES || length > sizeof address->name)
        return;
    memset(&address->name, 0, sizeof address->name);
    memcpy(&address->name, name, length);
    address->length = (socklen_t)length;
    client->addresses++;
}

/* The addresses of a host name, in the system's order. */
static inline snapd_result snapd_look_up(snapd_client *client, const char *host, in_port_t port)
{
    struct addrinfo wanted, *found = NULL;
    int failed;
    memset(&wanted, 0, sizeof wanted);
    wanted.ai_socktype = SOCK_STREAM;
    failed = getaddrinfo(host, NULL, &wanted, &found);
    if (failed != 0) {
        client->error = failed == EAI_SYSTEM ? errno : 0;
        return SNAPD_NO_ADDRESS;
    }
    for (const struct addrinfo *it = found; it != NULL; it = it->ai_next) {
        if (it->ai_family == AF_INET)
            ((struct sockaddr_in *)(void *)it->ai_addr)->sin_port = port;
        else if (it->ai_family == AF_INET6)
            ((struct sockaddr_in6 *)(void *)it->ai_addr)->sin6_port = port;
        else
            continue;
        snapd_add_address(client, it->ai_addr, it->ai_addrlen);
    }
    freeaddrinfo(found);
    return client->addresses > 0 ? SNAPD_OK : SNAPD_NO_ADDRESS;
}

static inline snapd_result snapd_name_file(snapd_client *client, const char *path, int port)
{
    struct sockaddr_un file;
    size_t length = strlen(path);
    if (port != 0 || length < 1 || length >= sizeof file.sun_path)
        return SNAPD_BAD_CALL;
    memset(&file, 0, sizeof file);
    file.sun_family = AF_UNIX;
    memcpy(file.sun_path, path, length);
    snapd_add_address(client, &file, sizeof file);
    return SNAPD_OK;
}

/* The path after `unix:`, or a host with a port. A numeric one isn't looked up. */
static inline snapd_result snapd_name_server(snapd_client *client, const char *host, int port)
{
    struct sockaddr_in four;
    struct sockaddr_in6 six;
    memset(&four, 0, sizeof four);
    memset(&six, 0, sizeof six);
    if (strncmp(host, "unix:", 5) == 0)
        return snapd_name_file(client, host + 5, port);
    if (port < 1 || port > 65535 || host[0] == 0)
        return SNAPD_BAD_CALL;
    four.sin_port = six.sin6_port = htons((uint16_t)port);
    if (inet_pton(AF_INET, host, &four.sin_addr) == 1) {
        four.sin_family = AF_INET;
        snapd_add_address(client, &four, sizeof four);
    } else if (inet_pton(AF_INET6, host, &six.sin6_addr) == 1) {
        six.sin6_family = AF_INET6;
        snapd_add_address(client, &six, sizeof six);
    } else {
        return snapd_look_up(client, host, four.sin_port);
    }
    return SNAPD_OK;
}

SNAPD_API snapd_result snapd_open(snapd_client *client, const char *host, int port, int timeout, int tries)
{
    client->addresses = 0;
    client->timeout = timeout;
    client->tries = tries;
    client->until = INT64_MAX;
    client->connection = -1;
    client->process = getpid();
    client->refusal = client->error = 0;
    client->detail = 0;
    return timeout < 1 || tries < 1 ? SNAPD_BAD_CALL : snapd_name_server(client, host, port);
}

SNAPD_API void snapd_close(snapd_client *client)
{
    if (client->connection >= 0)
        close(client->connection);
    client->connection = -1;
}

/* Milliseconds of a clock that is never set. */
static inline int64_t snapd_now(void)
{
    struct timespec now;
    clock_gettime(CLOCK_MONOTONIC, &now);
    return (int64_t)now.tv_sec * 1000 + now.tv_nsec / 1000000;
}

/* Rests for this time, whatever signals come in between. */
static inline void snapd_rest(int64_t milliseconds)
{
    int64_t end = snapd_now() + milliseconds, left;
    while ((left = end - snapd_now()) > 0) {
        struct timespec rest;
        rest.tv_sec = (time_t)(left / 1000);
        rest.tv_nsec = (long)(left % 1000) * 1000000L;
        nanosleep(&rest, NULL);
    }
}

/* Waits until the connection can be read (POLLIN) or written (POLLOUT). */
static inline snapd_result snapd_poll(snapd_client *client, short what, int64_t end)
{
    for (;;) {
        struct pollfd one;
        int64_t left = end - snapd_now();
        int ready;
        if (left <= 0)
            return SNAPD_TIMED_OUT;
        one.fd = client->connection;
        one.events = what;
        one.revents = 0;
        ready = poll(&one, 1, (int)left);
        if (ready > 0)
            return SNAPD_OK;
        if (ready < 0 && errno != EINTR) {
            client->error = errno;
            return SNAPD_NOT_ANSWERED;
        }
    }
}

static inline snapd_result snapd_failed(snapd_client *client)
{
    client->error = errno;
    return SNAPD_NOT_ANSWERED;
}

/* Connects, or begins to and waits for the result. If the queue of a Unix socket is full the system reports that at
 * once and doesn't wait. */
static inline snapd_result snapd_join(snapd_client *client, const snapd_address *address, int64_t end)
{
    while (connect(client->connection, (const struct sockaddr *)&address->name, address->length) != 0) {
        if (errno == EINPROGRESS || errno == EINTR)
            return snapd_poll(client, POLLOUT, end);
        if (errno != EAGAIN || address->name.ss_family != AF_UNIX)
            return snapd_failed(client);
        if (snapd_now() >= end)
            return SNAPD_TIMED_OUT;
        snapd_rest(2);
    }
    return SNAPD_OK;
}

/* A new connection to this address. */
static inline snapd_result snapd_connect_to(snapd_client *client, const snapd_address *address, int64_t end)
{
    int on = 1, error = 0;
    socklen_t size = sizeof error;
    snapd_result result;
    client->connection = socket(address->name.ss_family, SOCK_STREAM, 0);
    client->process = getpid();
    if (client->connection < 0 || fcntl(client->connection, F_SETFL, O_NONBLOCK) < 0)
        return snapd_failed(client);
    fcntl(client->connection, F_SETFD, FD_CLOEXEC);
    setsockopt(client->connection, IPPROTO_TCP, TCP_NODELAY, &on, sizeof on);
    result = snapd_join(client, address, end);
    if (result != SNAPD_OK)
        return result;
    if (getsockopt(client->connection, SOL_SOCKET, SO_ERROR, &error, &size) < 0)
        return snapd_failed(client);
    client->error = error;
    return error ? SNAPD_NOT_ANSWERED : SNAPD_OK;
}

/* A new connection to the first address that accepts it. One that is silent leaves time for the next. */
static inline snapd_result snapd_connect(snapd_client *client, int64_t end)
{
    snapd_result result = SNAPD_NOT_ANSWERED;
    for (int i = 0; i < client->addresses; i++) {
        int64_t now = snapd_now();
        result = snapd_connect_to(client, &client->address[i], now + (end - now) / (client->addresses - i));
        if (result == SNAPD_OK)
            return result;
        snapd_close(client);
    }
    return result;
}

/* The open connection, or a new one if there is none, the server has ended it, or the parent of a forked process made
 * it: two processes on one connection would take each other's replies. Bytes without a request are no answer to the
 * next one. */
static inline snapd_result snapd_connected(snapd_client *client, int64_t end)
{
    if (client->process != getpid())
        snapd_close(client);
    if (client->connection >= 0) {
        unsigned char byte;
        ssize_t held;
        do
            held = recv(client->connection, &byte, 1, MSG_PEEK);
        while (held < 0 && errno == EINTR);
        if (held > 0)
            return SNAPD_BAD_REPLY;
        if (held < 0 && (errno == EAGAIN || errno == EWOULDBLOCK))
            return SNAPD_OK;
        snapd_close(client);
    }
    return snapd_connect(client, end);
}

/* A request: its head, its value, and the buffer for its reply's payload. */
typedef struct {
    unsigned char head[14];
    size_t head_length;
    const void *value;
    size_t length;
    unsigned char *reply;
    size_t room;
} snapd_request;

/* Sends a request, in as many pieces as the system takes it. The value isn't copied. */
static inline snapd_result snapd_send(snapd_client *client, snapd_request *request, int64_t end)
{
    struct iovec rest[2];
    struct msghdr message;
    memset(&message, 0, sizeof message);
    message.msg_iov = rest;
    message.msg_iovlen = 2;
    rest[0].iov_base = request->head;
    rest[0].iov_len = request->head_length;
    rest[1].iov_base = (void *)(uintptr_t)request->value; /* it is only read */
    rest[1].iov_len = request->length;
    while (rest[0].iov_len + rest[1].iov_len > 0) {
        ssize_t sent;
        snapd_result result = snapd_poll(client, POLLOUT, end);
        if (result != SNAPD_OK)
            return result;
        sent = sendmsg(client->connection, &message, MSG_NOSIGNAL);
        if (sent < 0 && errno != EAGAIN && errno != EWOULDBLOCK && errno != EINTR)
            return snapd_failed(client);
        for (int i = 0; i < 2 && sent > 0; i++) {
            size_t gone = (size_t)sent < rest[i].iov_len ? (size_t)sent : rest[i].iov_len;
            rest[i].iov_base = (unsigned char *)rest[i].iov_base + gone;
            rest[i].iov_len -= gone;
            sent -= (ssize_t)gone;
        }
    }
    return SNAPD_OK;
}

/* Receives exactly `length` bytes. */
static inline snapd_result snapd_receive(snapd_client *client, unsigned char *bytes, size_t length, int64_t end)
{
    while (length > 0) {
        ssize_t came;
        snapd_result result = snapd_poll(client, POLLIN, end);
        if (result != SNAPD_OK)
            return result;
        came = recv(client->connection, bytes, length, 0);
        if (came == 0) {
            client->error = 0;
            return SNAPD_NOT_ANSWERED;
        }
        if (came < 0 && errno != EAGAIN && errno != EWOULDBLOCK && errno != EINTR)
            return snapd_failed(client);
        if (came > 0) {
            bytes += came;
            length -= (size_t)came;
        }
    }
    return SNAPD_OK;
}

/* ---- one call ---- */

/* One try: sends the request, and receives the payload of its reply, *length bytes, into its buffer. A longer one
 * answers another request. */
static inline snapd_result snapd_try(snapd_client *client, snapd_request *request, size_t *length)
{
    int64_t end = snapd_now() + client->timeout;
    unsigned char head[4];
    snapd_result result;
    if (end > client->until)
        end = client->until;
    result = snapd_connected(client, end);
    if (result != SNAPD_OK)
        return result;
    result = snapd_send(client, request, end);
    if (result != SNAPD_OK)
        return result;
    result = snapd_receive(client, head, 4, end);
    if (result != SNAPD_OK)
        return result;
    *length = (size_t)snapd_read_number(head, 4);
    return *length > request->room ? SNAPD_BAD_REPLY : snapd_receive(client, request->reply, *length, end);
}

/* The payload of the reply, over as many connections as it may take. It rests for a tenth of a second after the first
 * one, and after each other one twice as long. */
static inline snapd_result snapd_ask(snapd_client *client, snapd_request *request, size_t *length)
{
    for (int made = 1;; made++) {
        int64_t rest = 100 * (made < 8 ? (int64_t)1 << (made - 1) : 128), left;
        snapd_result result;
        client->refusal = client->error = 0;
        client->detail = 0;
        result = snapd_try(client, request, length);
        if (result == SNAPD_OK)
            return result;
        snapd_close(client);
        if (result == SNAPD_BAD_REPLY || made >= client->tries)
            return result;
        left = client->until - snapd_now();
        snapd_rest(rest < left ? rest : left);
        if (rest >= left)
            return SNAPD_TIMED_OUT;
    }
}

/* What isn't the reply that was asked for: a refusal, or no reply at all. */
static inline snapd_result snapd_other(snapd_client *client, const unsigned char *x, size_t length)
{
    if (length == 10 && x[0] == 0xE0 && x[1] >= SNAPD_MALFORMED && x[1] <= SNAPD_WORN) {
        client->refusal = x[1];
        client->detail = snapd_read_number(x + 2, 8);
        return SNAPD_REFUSED;
    }
    snapd_close(client);
    return SNAPD_BAD_REPLY;
}

static inline int snapd_is_number(uint64_t number)
{
    return number >> 63 == 0;
}

static inline int snapd_is_count(unsigned count)
{
    return count >= 1 && count <= SNAPD_MAX_SEGMENTS;
}

SNAPD_API snapd_result snapd_update(snapd_client *client, unsigned segment, uint64_t number, const void *value,
                                    size_t length, uint64_t *stored)
{
    snapd_request request;
    snapd_result result;
    size_t came = 0;
    *stored = 0;
    if (segment > 255 || length > SNAPD_MAX_SENT)
        return SNAPD_BAD_CALL;
    snapd_write_number(request.head, 10 + length, 4);
    request.head[4] = 0x01;
    request.head[5] = (unsigned char)segment;
    snapd_write_number(request.head + 6, number, 8);
    request.head_length = 14;
    request.value = value;
    request.length = length;
    request.reply = client->reply;
    request.room = sizeof client->reply;
    result = snapd_ask(client, &request, &came);
    if (result != SNAPD_OK)
        return result;
    if (came != 9 || client->reply[0] != 0x81 || !snapd_is_number(number)
        || snapd_read_number(client->reply + 1, 8) != number)
        return snapd_other(client, client->reply, came);
    *stored = number;
    return SNAPD_OK;
}

/* Sends a request that is a head alone, of `bytes` bytes after the first four. */
static inline snapd_result snapd_ask_head(snapd_client *client, uint64_t head, int bytes, unsigned char *reply,
                                          size_t room, size_t *length)
{
    snapd_request request;
    snapd_write_number(request.head, (uint64_t)bytes, 4);
    snapd_write_number(request.head + 4, head, bytes);
    request.head_length = 4 + (size_t)bytes;
    request.value = NULL;
    request.length = 0;
    request.reply = reply;
    request.room = room;
    return snapd_ask(client, &request, length);
}

/* Reads the entry at this place of a payload. Returns the place after it, or 0 if there is none. */
static inline size_t snapd_read_entry(const unsigned char *x, size_t length, size_t at, snapd_entry *entry)
{
    if (length - at < 12)
        return 0;
    entry->number = snapd_read_number(x + at, 8);
    entry->length = (uint32_t)snapd_read_number(x + at + 8, 4);
    entry->value = x + at + 12;
    at += 12;
    if (!snapd_is_number(entry->number) || entry->length > SNAPD_MAX_VALUE || length - at < entry->length)
        return 0;
    return at + entry->length;
}

/* The entries of a snapshot's payload; 0 where it isn't one. */
static inline int snapd_read_snapshot(const unsigned char *x, size_t length, snapd_snapshot *snapshot)
{
    size_t at = 2;
    if (length < 2 || x[0] != 0x82 || !snapd_is_count(x[1]))
        return 0;
    snapshot->count = x[1];
    for (int i = 0; i < snapshot->count; i++) {
        at = snapd_read_entry(x, length, at, &snapshot->entry[i]);
        if (at == 0)
            return 0;
    }
    return at == length;
}

SNAPD_API snapd_result snapd_scan(snapd_client *client, snapd_snapshot *snapshot)
{
    size_t length = 0;
    snapd_result result = snapd_ask_head(client, 0x02, 1, client->values, sizeof client->values, &length);
    snapshot->count = 0;
    if (result != SNAPD_OK)
        return result;
    if (!snapd_read_snapshot(client->values, length, snapshot))
        return snapd_other(client, client->values, length);
    return SNAPD_OK;
}

/* The entries of these segments, in ascending order; 0 where the payload isn't a scan of them. */
static inline int snapd_read_part(const unsigned char *x, size_t length, unsigned mask, snapd_part *part)
{
    size_t at = 2;
    unsigned left = mask;
    if (length < 2 || x[0] != 0x84)
        return 0;
    for (int i = 0; i < x[1]; i++) {
        unsigned segment;
        if (at >= length || x[at] >= SNAPD_MAX_SEGMENTS)
            return 0;
        segment = x[at];
        /* the lowest of those that are left */
        if ((left & ((2U << segment) - 1)) != 1U << segment)
            return 0;
        left &= ~(1U << segment);
        at = snapd_read_entry(x, length, at + 1, &part->entry[segment]);
        if (at == 0)
            return 0;
    }
    return left == 0 && at == length;
}

SNAPD_API snapd_result snapd_scan_some(snapd_client *client, unsigned mask, snapd_part *part)
{
    snapd_result result;
    size_t length = 0;
    part->mask = 0;
    if (mask == 0 || mask >> SNAPD_MAX_SEGMENTS != 0)
        return SNAPD_BAD_CALL;
    result = snapd_ask_head(client, 0x040000U | mask, 3, client->values, sizeof client->values, &length);
    if (result != SNAPD_OK)
        return result;
    if (!snapd_read_part(client->values, length, mask, part))
        return snapd_other(client, client->values, length);
    part->mask = mask;
    return SNAPD_OK;
}

/* The entries of a status's payload; 0 where it isn't one. */
static inline int snapd_read_status(const unsigned char *x, size_t length, snapd_status_list *list)
{
    if (length < 2 || x[0] != 0x83 || !snapd_is_count(x[1]) || length != 2 + 9 * (size_t)x[1])
        return 0;
    list->count = x[1];
    for (int i = 0; i < list->count; i++) {
        const unsigned char *at = x + 2 + 9 * i;
        list->standing[i].number = snapd_read_number(at, 8);
        list->standing[i].fenced = at[8];
        if (!snapd_is_number(list->standing[i].number) || at[8] > 1)
            return 0;
    }
    return 1;
}

SNAPD_API snapd_result snapd_status(snapd_client *client, snapd_status_list *list)
{
    size_t length = 0;
    snapd_result result = snapd_ask_head(client, 0x03, 1, client->reply, sizeof client->reply, &length);
    list->count = 0;
    if (result != SNAPD_OK)
        return result;
    return snapd_read_status(client->reply, length, list) ? SNAPD_OK : snapd_other(client, client->reply, length);
}

SNAPD_API const char *snapd_refusal_name(int refusal)
{
    static const char *const names[] = {
        "Malformed", "NoSegment", "TooLong", "Conflict", "OutOfStep", "Fenced", "Full", "NoMemory", "Exhausted",
        "Damaged", "Unformatted", "AlreadyFormatted", "DeviceFailed", "WrongFile", "TooLarge", "NotNow", "Worn",
    };
    return refusal >= SNAPD_MALFORMED && refusal <= SNAPD_WORN ? names[refusal - 1] : "Unknown";
}

SNAPD_API const char *snapd_result_name(snapd_result result)
{
    static const char *const names[] = {
        "ok", "refused", "not answered", "timed out", "bad reply", "bad call", "no address",
    };
    return (unsigned)result <= SNAPD_NO_ADDRESS ? names[result] : "unknown";
}

#endif

#ifdef __cplusplus
}
#endif

#endif
