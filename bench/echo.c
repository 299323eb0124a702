/* As little of a server as does the same work: the yardstick for `snapd serve`.
 *
 *     echo serve FOLDER SEGMENTS LENGTH        answers the frames of snapd over loopback, a thread for each connection
 *     echo live FOLDER SEGMENTS LENGTH         the same, and a scan is answered by what was stored
 *     echo calls FOLDER WRITERS MILLISECONDS   makes the calls of stores alone, each writer on a file of its own
 *     echo start FILE..                        opens, locks, syncs and reads each file, and ends
 *     echo touch KILOBYTES                     writes this much new memory, and copies it to as much again
 *
 * `serve` makes the device calls of a store for each update, on the file `S` and its segment in FOLDER, and judges
 * nothing. It answers each scan by SEGMENTS values of LENGTH bytes that never change, and prints `listening
 * 127.0.0.1:PORT`. `live` copies each value once more after its store, and all of them for each scan, a segment at a
 * time under its lock: its scans are of no one moment. `calls` prints the stores a second and the median of their times
 * in nanoseconds, and `touch` how many nanoseconds it took, with a byte of the copy, so that none is left out.
 */
#define _GNU_SOURCE
#include <arpa/inet.h>
#include <fcntl.h>
#include <netinet/tcp.h>
#include <pthread.h>
#include <signal.h>
#include <stdatomic.h>
#include <stdio.h>
#include <stdlib.h>
#include <string.h>
#include <sys/file.h>
#include <time.h>
#include <unistd.h>

enum { BLOCK = 4096, LENGTH = 7 * BLOCK, MOST = 16, MOST_TIMES = 1 << 20, LONGEST = 1 << 17 };

static int files[MOST], segments, is_live;
static pthread_mutex_t locks[MOST];
static unsigned char snapshot[LONGEST];
static size_t snapshot_length;
static long long begin, end;
static atomic_llong count;
static long long times[MOST_TIMES];

static void must(int holds, const char *what) {
    if (holds) return;
    perror(what);
    exit(1);
}

static long long now(void) {
    struct timespec time;
    clock_gettime(CLOCK_MONOTONIC, &time);
    return time.tv_sec * 1000000000LL + time.tv_nsec;
}

static void put_number(unsigned char *at, unsigned long long number, int bytes) {
    for (int i = bytes - 1; i >= 0; i--, number >>= 8) at[i] = number & 255;
}

static void open_files(const char *folder, int wanted) {
    for (int i = 0; i < wanted; i++) {
        char path[4096];
        snprintf(path, sizeof path, "%s/S%d", folder, i);
        files[i] = open(path, O_RDWR | O_CLOEXEC);
        must(files[i] >= 0, path);
    }
}

/* The calls of a store whose spare gate is open. */
static void store(int file, unsigned long long number, unsigned char *body) {
    off_t slot = BLOCK + 2 * BLOCK * (off_t)(number % 3), spare = BLOCK + 2 * BLOCK * (off_t)((number + 1) % 3);
    put_number(body, number, 8);
    must(pwrite(file, "\0", 1, spare) == 1 && pwrite(file, body, BLOCK, slot + BLOCK) == BLOCK, "pwrite");
    must(fdatasync(file) == 0 && pwrite(file, "\xa5", 1, slot) == 1 && fdatasync(file) == 0, "fdatasync");
}

static int receive(int stream, unsigned char *bytes, size_t wanted) {
    for (size_t held = 0; held < wanted;) {
        ssize_t came = read(stream, bytes + held, wanted - held);
        if (came <= 0) return 0;
        held += came;
    }
    return 1;
}

static int answered(int stream, const void *bytes, size_t wanted) {
    return write(stream, bytes, wanted) == (ssize_t)wanted;
}

/* The place in a snapshot of a segment's number, which its length and its value follow. */
static size_t entry_at(int segment) {
    return 6 + segment * ((snapshot_length - 6) / segments);
}

/* Notes what was stored. Each value has the length that the snapshot has room for. */
static void show(int segment, const unsigned char *number, const unsigned char *value) {
    size_t at = entry_at(segment);
    pthread_mutex_lock(&locks[segment]);
    memcpy(snapshot + at, number, 8);
    memcpy(snapshot + at + 12, value, entry_at(1) - entry_at(0) - 12);
    pthread_mutex_unlock(&locks[segment]);
}

static int answered_scan(int stream, unsigned char *copy) {
    if (!is_live) return answered(stream, snapshot, snapshot_length);
    memcpy(copy, snapshot, 6);
    for (int i = 0; i < segments; i++) {
        pthread_mutex_lock(&locks[i]);
        memcpy(copy + entry_at(i), snapshot + entry_at(i), entry_at(1) - entry_at(0));
        pthread_mutex_unlock(&locks[i]);
    }
    return answered(stream, copy, snapshot_length);
}

static void *serve(void *of) {
    int stream = (int)(long)of, on = 1;
    unsigned char *request = calloc(1, LONGEST), stored[13] = {0, 0, 0, 9, 0x81};
    setsockopt(stream, IPPROTO_TCP, TCP_NODELAY, &on, sizeof on);
    while (receive(stream, request, 4)) {
        size_t wanted = (size_t)request[0] << 24 | request[1] << 16 | request[2] << 8 | request[3];
        if (wanted > 66000 || !receive(stream, request, wanted)) break;
        if (request[0] == 2) {
            if (!answered_scan(stream, request)) break;
            continue;
        }
        unsigned long long number = 0;
        for (int i = 2; i < 10; i++) number = number << 8 | request[i];
        memcpy(stored + 5, request + 2, 8);
        unsigned char body[BLOCK] = {0};
        put_number(body + 8, wanted - 10, 4);
        memcpy(body + 16, request + 10, wanted - 10);
        store(files[request[1] % segments], number, body);
        if (is_live) show(request[1] % segments, request + 2, request + 10);
        if (!answered(stream, stored, 13)) break;
    }
    close(stream);
    free(request);
    return NULL;
}

static void serve_all(int length) {
    struct sockaddr_in place = {.sin_family = AF_INET, .sin_addr.s_addr = htonl(INADDR_LOOPBACK)};
    socklen_t size = sizeof place;
    int listener = socket(AF_INET, SOCK_STREAM, 0);
    must(bind(listener, (struct sockaddr *)&place, size) == 0 && listen(listener, 1 << 16) == 0, "listen");
    must(getsockname(listener, (struct sockaddr *)&place, &size) == 0, "getsockname");
    snapshot_length = 6 + (size_t)segments * (12 + length);
    put_number(snapshot, snapshot_length - 4, 4);
    snapshot[4] = 0x82, snapshot[5] = segments;
    for (int i = 0; i < segments; i++) put_number(snapshot + entry_at(i) + 8, length, 4);
    for (int i = 0; i < segments; i++) pthread_mutex_init(&locks[i], NULL);
    printf("listening 127.0.0.1:%d\n", ntohs(place.sin_port));
    fflush(stdout);
    for (;;) {
        pthread_t thread;
        int stream = accept(listener, NULL, NULL);
        must(stream >= 0 && pthread_create(&thread, NULL, serve, (void *)(long)stream) == 0, "accept");
        pthread_detach(thread);
    }
}

static void *store_on(void *of) {
    unsigned char body[BLOCK] = {0};
    long long since;
    for (unsigned long long number = 1;; number++) {
        since = now();
        store(files[(long)of], number, body);
        long long at = now();
        if (since >= begin && at < end) {
            long long place = atomic_fetch_add(&count, 1);
            if (place < MOST_TIMES) times[place] = at - since;
        }
        if (at >= end) return NULL;
    }
}

static int by_time(const void *a, const void *b) {
    long long first = *(const long long *)a, second = *(const long long *)b;
    return (first > second) - (first < second);
}

static void calls(int writers, long long milliseconds) {
    pthread_t threads[MOST];
    long long span = milliseconds * 1000000LL, start = now();
    begin = start + span / 10, end = start + span;
    for (long i = 0; i < writers; i++) must(pthread_create(&threads[i], NULL, store_on, (void *)i) == 0, "thread");
    for (int i = 0; i < writers; i++) pthread_join(threads[i], NULL);
    long long kept = count < MOST_TIMES ? count : MOST_TIMES;
    qsort(times, kept, sizeof *times, by_time);
    printf("%.1f %lld\n", count / ((end - begin) / 1e9), kept ? times[kept / 2] : 0);
}

static void start(int wanted, char **paths) {
    static unsigned char all[LENGTH];
    for (int i = 0; i < wanted; i++) {
        int file = open(paths[i], O_RDWR | O_CLOEXEC);
        must(file >= 0 && flock(file, LOCK_EX | LOCK_NB) == 0, paths[i]);
        must(fdatasync(file) == 0 && pread(file, all, LENGTH, 0) == LENGTH, paths[i]);
    }
    printf("listening nowhere\n");
}

static void touch(size_t bytes) {
    long long since = now();
    unsigned char *first = malloc(bytes), *second = malloc(bytes);
    must(first && second, "malloc");
    memset(first, 1, bytes);
    memcpy(second, first, bytes);
    long long took = now() - since;
    printf("%lld %d\n", took, second[bytes / 2]);
}

int main(int words, char **word) {
    must(words >= 3, "echo serve|live|calls|start|touch ..");
    signal(SIGPIPE, SIG_IGN);
    if (strcmp(word[1], "start") == 0) {
        start(words - 2, word + 2);
    } else if (strcmp(word[1], "touch") == 0) {
        touch(1024 * strtoul(word[2], NULL, 10));
    } else if (strcmp(word[1], "calls") == 0) {
        must(words == 5 && atoi(word[3]) <= MOST, "writers");
        open_files(word[2], atoi(word[3]));
        calls(atoi(word[3]), atoll(word[4]));
    } else {
        must(words == 5 && atoi(word[3]) <= MOST, "segments");
        segments = atoi(word[3]);
        is_live = strcmp(word[1], "live") == 0;
        open_files(word[2], segments);
        serve_all(atoi(word[4]));
    }
    return 0;
}
