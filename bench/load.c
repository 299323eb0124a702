/* Asks a server by many connections, each in a thread of its own that asks again once it is answered.
 *
 *     load PORT KIND SEGMENTS LENGTH WRITERS READERS MILLISECONDS [COMERS RATE]
 *
 * KIND is `snapd`, `redis`, or without readers `etcd`, `postgres` or `sqlite`, whose PORT is the path of a file that
 * this process opens. Each writer updates its own segment, or key, by values of LENGTH bytes, and each reader scans all
 * of them, or those that the environment's PART names, by four hexadecimal digits. Each comer, of whom there are none
 * by default, connects, asks nothing, leaves, and comes again, all of them RATE times a second, or with RATE 0 as fast
 * as they can. It prints three lines, `updates`, `scans` and `connections`, each with how many there were a second, and
 * the median and the 99th percentile of their times in nanoseconds. The first tenth of the time counts for nothing.
 */
#define _GNU_SOURCE
#include <arpa/inet.h>
#include <netinet/tcp.h>
#include <pthread.h>
#include <stdatomic.h>
#include <stdio.h>
#include <stdlib.h>
#include <string.h>
#include <time.h>
#include <unistd.h>

enum { MOST_CONNECTIONS = 64, MOST_TIMES = 1 << 22, LONGEST = 1 << 17, KINDS = 3 };

static int port, is_redis, segments, length, comers, rate, part;
static const char *kind_of_server;
static long long begin, end;
static atomic_llong counts[KINDS];
static long long *times[KINDS];

static void must(int holds, const char *what) {
    if (holds) return;
    perror(what);
    exit(1);
}

static long long now(void) {
    struct timespec time;
    clock_gettime(CLOCK_MONOTONIC, &time);
    return time.tv_sec * 1000000000LL + time.tv_nsec;
}

static int connected(void) {
    struct sockaddr_in place = {
        .sin_family = AF_INET, .sin_port = htons(port), .sin_addr.s_addr = htonl(INADDR_LOOPBACK)
    };
    int stream = socket(AF_INET, SOCK_STREAM, 0), on = 1;
    must(stream >= 0 && connect(stream, (struct sockaddr *)&place, sizeof place) == 0, "connect");
    setsockopt(stream, IPPROTO_TCP, TCP_NODELAY, &on, sizeof on);
    return stream;
}

static void put_number(unsigned char *at, unsigned long long number, int count) {
    for (int i = count - 1; i >= 0; i--, number >>= 8) at[i] = number & 255;
}

static void send_all(int stream, const void *bytes, size_t count) {
    for (size_t sent = 0; sent < count;) {
        ssize_t went = write(stream, (const char *)bytes + sent, count - sent);
        must(went > 0, "write");
        sent += went;
    }
}

static void receive(int stream, unsigned char *bytes, size_t count) {
    for (size_t held = 0; held < count;) {
        ssize_t came = read(stream, bytes + held, count - held);
        must(came > 0, "read");
        held += came;
    }
}

#include "others.h"

/* A frame's payload; its length. */
static size_t receive_frame(int stream, unsigned char *bytes) {
    receive(stream, bytes, 4);
    size_t count = (size_t)bytes[0] << 24 | bytes[1] << 16 | bytes[2] << 8 | bytes[3];
    must(count <= 66000, "frame");
    receive(stream, bytes, count);
    return count;
}

static unsigned long long number_of(int segment) {
    unsigned char *reply = malloc(LONGEST);
    unsigned long long number = 0;
    int stream = connected();
    send_all(stream, "\0\0\0\1\2", 5);
    size_t count = receive_frame(stream, reply), at = 2;
    must(reply[0] == 0x82 && reply[1] == segments, "snapshot");
    for (int i = 0; i < segment; i++)
        at += 12 + (reply[at + 8] << 24 | reply[at + 9] << 16 | reply[at + 10] << 8 | reply[at + 11]);
    must(at + 12 <= count, "segment");
    for (int k = 0; k < 8; k++) number = number << 8 | reply[at + k];
    close(stream);
    free(reply);
    return number;
}

/* Notes a time, from the tenth on. False once the time is over. */
static int timed(int kind, long long since) {
    long long at = now();
    if (since >= begin && at < end) {
        long long place = atomic_fetch_add(&counts[kind], 1);
        if (place < MOST_TIMES) times[kind][place] = at - since;
    }
    return at < end;
}

static size_t redis_set(unsigned char *request, int segment) {
    int head = sprintf((char *)request, "*3\r\n$3\r\nSET\r\n$3\r\nk%02d\r\n$%d\r\n", segment, length);
    memset(request + head, 'v', length);
    memcpy(request + head + length, "\r\n", 2);
    return head + length + 2;
}

static size_t redis_mget(unsigned char *request) {
    int at = sprintf((char *)request, "*%d\r\n$4\r\nMGET\r\n", segments + 1);
    for (int i = 0; i < segments; i++) at += sprintf((char *)request + at, "$3\r\nk%02d\r\n", i);
    return at;
}

static size_t redis_mget_reply(void) {
    char text[32];
    size_t each = sprintf(text, "$%d\r\n", length) + length + 2;
    return sprintf(text, "*%d\r\n", segments) + segments * each;
}

static void *write_on(void *of) {
    int segment = (int)(long)of, stream = connected();
    unsigned char *request = malloc(LONGEST), reply[64];
    size_t count = is_redis ? redis_set(request, segment) : 14 + (size_t)length;
    unsigned long long number = is_redis ? 0 : number_of(segment);
    long long since;
    if (!is_redis) {
        memset(request, 'v', count);
        put_number(request, count - 4, 4);
        request[4] = 1, request[5] = segment;
    }
    do {
        if (!is_redis) put_number(request + 6, ++number, 8);
        since = now();
        send_all(stream, request, count);
        receive(stream, reply, is_redis ? 5 : 13);
        must(is_redis ? memcmp(reply, "+OK\r\n", 5) == 0 : reply[4] == 0x81, "stored");
    } while (timed(0, since));
    close(stream);
    return NULL;
}

/* As `write_on`, for etcd, PostgreSQL and SQLite. Each value is another one: SQLite writes none that is as before. */
static void *keep_on(void *of) {
    int segment = (int)(long)of, kind = kind_of_server[0], stream = kind == 's' ? -1 : connected();
    unsigned char *request = calloc(1, LONGEST), *reply = malloc(LONGEST), *value = request;
    size_t count = 0, data = 0;
    long long since;
    if (kind == 'e') etcd_begin(stream), count = etcd_put(request, segment, &data), value += count - length;
    if (kind == 'p') postgres_begin(stream, request, segment), count = postgres_update(request), value += 18;
    for (unsigned number = 1;; number += 2) {
        put_number(value, number, 4);
        since = now();
        if (kind == 'e') put_number(request + 5, number, 4), put_number(request + data + 5, number, 4);
        if (kind == 's') {
            sqlite_update(request, segment);
        } else {
            send_all(stream, request, count);
            kind == 'e' ? etcd_answer(stream, reply) : postgres_answer(stream, reply, "UPDATE 1");
        }
        if (!timed(0, since)) return NULL;
    }
}

static void *scan_on(void *of) {
    int stream = connected();
    unsigned char *request = malloc(LONGEST), *reply = malloc(LONGEST);
    size_t count = is_redis ? redis_mget(request) : part ? 7 : 5;
    long long since;
    (void)of;
    if (!is_redis) memcpy(request, part ? "\0\0\0\3\4" : "\0\0\0\1\2", 5);
    if (!is_redis && part) put_number(request + 5, part, 2);
    do {
        since = now();
        send_all(stream, request, count);
        if (is_redis)
            receive(stream, reply, redis_mget_reply());
        else
            must(receive_frame(stream, reply) > 2 && reply[0] == (part ? 0x84 : 0x82), "snapshot");
    } while (timed(1, since));
    close(stream);
    return NULL;
}

/* Rests until it is time to connect. A late connection begins at once. */
static void rest_until(long long due) {
    struct timespec time = {.tv_sec = due / 1000000000LL, .tv_nsec = due % 1000000000LL};
    if (rate > 0) clock_nanosleep(CLOCK_MONOTONIC, TIMER_ABSTIME, &time, NULL);
}

/* It waits for nothing that the server does, and closes by a reset, so that no port stays in use for a minute. */
static void *come_and_go(void *of) {
    struct linger reset = {.l_onoff = 1, .l_linger = 0};
    long long since = now(), due = since;
    (void)of;
    do {
        rest_until(due);
        if (rate > 0) due += comers * 1000000000LL / rate;
        since = now();
        int stream = connected();
        must(setsockopt(stream, SOL_SOCKET, SO_LINGER, &reset, sizeof reset) == 0 && close(stream) == 0, "close");
    } while (timed(2, since));
    return NULL;
}

static int by_time(const void *a, const void *b) {
    long long first = *(const long long *)a, second = *(const long long *)b;
    return (first > second) - (first < second);
}

static void print(const char *name, int kind) {
    long long count = counts[kind] < MOST_TIMES ? counts[kind] : MOST_TIMES;
    double seconds = (end - begin) / 1e9;
    qsort(times[kind], count, sizeof(long long), by_time);
    printf("%s %.1f %lld %lld\n", name, counts[kind] / seconds, count ? times[kind][count / 2] : 0,
           count ? times[kind][count * 99 / 100] : 0);
}

int main(int words, char **word) {
    pthread_t threads[MOST_CONNECTIONS];
    must(words == 8 || words == 10, "load PORT KIND SEGMENTS LENGTH WRITERS READERS MILLISECONDS [COMERS RATE]");
    kind_of_server = word[2], port = atoi(word[1]), is_redis = strcmp(word[2], "redis") == 0;
    segments = atoi(word[3]), length = atoi(word[4]);
    int writers = atoi(word[5]), readers = atoi(word[6]), all = 0;
    if (getenv("PART")) part = strtol(getenv("PART"), NULL, 16);
    if (words == 10) comers = atoi(word[8]), rate = atoi(word[9]);
    must(writers <= segments && writers + readers + comers <= MOST_CONNECTIONS, "connections");
    long long span = atoll(word[7]) * 1000000LL;
    for (int kind = 0; kind < KINDS; kind++) times[kind] = malloc(MOST_TIMES * sizeof(long long));
    int is_known = is_redis || strcmp(word[2], "snapd") == 0;
    void *(*write)(void *) = is_known ? write_on : keep_on;
    must(is_known || readers == 0, "no scans of this one");
    if (word[2][0] == 's' && !is_known) sqlite_begin(word[1]);
    begin = now() + span / 10, end = begin + span - span / 10;
    for (long i = 0; i < writers; i++) must(pthread_create(&threads[all++], NULL, write, (void *)i) == 0, "thread");
    for (long i = 0; i < readers; i++) must(pthread_create(&threads[all++], NULL, scan_on, NULL) == 0, "thread");
    for (long i = 0; i < comers; i++) must(pthread_create(&threads[all++], NULL, come_and_go, NULL) == 0, "thread");
    for (int i = 0; i < all; i++) pthread_join(threads[i], NULL);
    print("updates", 0);
    print("scans", 1);
    print("connections", 2);
    return 0;
}
