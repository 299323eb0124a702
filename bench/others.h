/* How etcd and PostgreSQL are asked over a connection to keep a value under a key, and how SQLite does it in this
 * process. */
#include <dlfcn.h>
#include <semaphore.h>

/* ---- etcd, by gRPC: frames of HTTP/2, with a message of protocol buffers in one of them ---- */

enum { DATA, HEADERS, RESET = 3, SETTINGS, PING = 6, GOAWAY };

static size_t http2_frame(unsigned char *at, size_t count, int type, int flags, unsigned stream) {
    put_number(at, count, 3);
    at[3] = type, at[4] = flags;
    put_number(at + 5, stream, 4);
    return 9 + count;
}

static size_t text(unsigned char *at, const char *words) {
    at[0] = strlen(words);
    memcpy(at + 1, words, at[0]);
    return 1 + at[0];
}

static void etcd_begin(int stream) {
    unsigned char hello[64];
    memcpy(hello, "PRI * HTTP/2.0\r\n\r\nSM\r\n\r\n", 24);
    size_t count = 24 + http2_frame(hello + 24, 0, SETTINGS, 0, 0);
    /* Room for all replies. */
    count += http2_frame(hello + count, 4, 8, 0, 0);
    put_number(hello + count - 4, 0x7fff0000, 4);
    send_all(stream, hello, count);
}

/* The frames of a put, all but the numbers of their stream, which are to be written at byte 5 of each. `data` is where
 * the second one begins. */
static size_t etcd_put(unsigned char *request, int segment, size_t *data) {
    unsigned char *at = request + 9;
    /* POST and http, then the path, the host, the type and `te`. */
    *at++ = 0x83, *at++ = 0x86, *at++ = 0x04;
    at += text(at, "/etcdserverpb.KV/Put");
    *at++ = 0x01;
    at += text(at, "localhost");
    *at++ = 0x0f, *at++ = 0x10;
    at += text(at, "application/grpc");
    *at++ = 0x00;
    at += text(at, "te");
    at += text(at, "trailers");
    http2_frame(request, at - request - 9, HEADERS, 4, 0);
    *data = at - request;
    unsigned char *message = at + 9;
    at = message + 5;
    *at++ = 0x0a, *at++ = 3;
    at += sprintf((char *)at, "k%02d", segment);
    *at++ = 0x12, *at++ = (length & 127) | 128, *at++ = length >> 7;
    memset(at, 'v', length);
    at += length;
    message[0] = 0;
    put_number(message + 1, at - message - 5, 4);
    http2_frame(request + *data, at - message, DATA, 1, 0);
    return at - request;
}

/* Reads until the stream has ended well, and answers what etcd asks meanwhile. */
static void etcd_answer(int stream, unsigned char *bytes) {
    for (int has_data = 0;;) {
        receive(stream, bytes, 9);
        size_t count = (size_t)bytes[0] << 16 | bytes[1] << 8 | bytes[2];
        int type = bytes[3], flags = bytes[4];
        must(count < LONGEST - 9 && type != RESET && type != GOAWAY, "etcd");
        receive(stream, bytes + 9, count);
        has_data |= type == DATA;
        if ((type == SETTINGS || type == PING) && !(flags & 1)) {
            http2_frame(bytes, type == PING ? count : 0, type, 1, 0);
            send_all(stream, bytes, type == PING ? 9 + count : 9);
        }
        if ((type == HEADERS || type == DATA) && flags & 1) {
            must(has_data, "a put of etcd");
            return;
        }
    }
}

/* ---- PostgreSQL: messages of a letter, a length and fields ---- */

/* Reads until it is ready for the next statement. */
static void postgres_answer(int stream, unsigned char *bytes, const char *wanted) {
    for (int is_done = wanted == NULL;;) {
        receive(stream, bytes, 5);
        int letter = bytes[0];
        size_t count = ((size_t)bytes[1] << 24 | bytes[2] << 16 | bytes[3] << 8 | bytes[4]) - 4;
        must(count < LONGEST && letter != 'E', "PostgreSQL");
        receive(stream, bytes, count);
        is_done |= letter == 'C' && strcmp((char *)bytes, wanted) == 0;
        if (letter != 'Z') continue;
        must(is_done, "an update of PostgreSQL");
        return;
    }
}

static size_t postgres_message(unsigned char *at, int letter, size_t count) {
    at[0] = letter;
    put_number(at + 1, 4 + count, 4);
    return 5 + count;
}

static void postgres_begin(int stream, unsigned char *request, int segment) {
    static const char who[] = "\0\3\0\0user\0postgres\0database\0postgres\0";
    put_number(request, 4 + sizeof who, 4);
    memcpy(request + 4, who, sizeof who);
    send_all(stream, request, 4 + sizeof who);
    postgres_answer(stream, request, NULL);
    static const char statement[] = "u%cUPDATE kept SET value = $1 WHERE segment = %d%c%c";
    size_t words = sprintf((char *)request + 5, statement, 0, segment, 0, 0) + 1;
    size_t count = postgres_message(request, 'P', words);
    request[count - 1] = 0;
    count += postgres_message(request + count, 'S', 0);
    send_all(stream, request, count);
    postgres_answer(stream, request, NULL);
}

static size_t postgres_update(unsigned char *request) {
    static const char head[] = "\0u\0\0\1\0\1\0\1";
    memcpy(request + 5, head, 9);
    put_number(request + 14, length, 4);
    memset(request + 18, 'v', length);
    memset(request + 18 + length, 0, 2);
    size_t count = postgres_message(request, 'B', 15 + length);
    memset(request + count + 5, 0, 5);
    count += postgres_message(request + count, 'E', 5);
    return count + postgres_message(request + count, 'S', 0);
}

/* ---- SQLite: one connection, which the threads take in the order of their coming ---- */

static struct {
    int (*open)(const char *, void **), (*exec)(void *, const char *, void *, void *, void *);
    int (*prepare)(void *, const char *, int, void **, void *), (*bind_int)(void *, int, int);
    int (*bind_blob)(void *, int, const void *, int, void *), (*step)(void *), (*reset)(void *);
} sqlite;
static void *statement;
static sem_t turns[64];
static atomic_uint tickets;

static void sqlite_begin(const char *path) {
    static const char *names[] = {"open", "exec", "prepare_v2", "bind_int", "bind_blob", "step", "reset"};
    void *library = dlopen("libsqlite3.so.0", RTLD_NOW), **call = (void **)&sqlite, *database;
    must(library != NULL, "libsqlite3.so.0");
    for (int i = 0; i < 7; i++) {
        char name[32];
        sprintf(name, "sqlite3_%s", names[i]);
        must((call[i] = dlsym(library, name)) != NULL, name);
    }
    must(sqlite.open(path, &database) == 0, path);
    const char *setup = "PRAGMA journal_mode=WAL; PRAGMA synchronous=FULL; "
                        "CREATE TABLE IF NOT EXISTS kept (segment INTEGER PRIMARY KEY, value BLOB)";
    must(sqlite.exec(database, setup, NULL, NULL, NULL) == 0, "SQLite");
    for (int i = 0; i < segments; i++) {
        char row[64];
        sprintf(row, "INSERT OR IGNORE INTO kept VALUES (%d, x'')", i);
        must(sqlite.exec(database, row, NULL, NULL, NULL) == 0, "SQLite");
    }
    const char *update = "UPDATE kept SET value = ?1 WHERE segment = ?2";
    must(sqlite.prepare(database, update, -1, &statement, NULL) == 0, "SQLite");
    for (int i = 0; i < 64; i++) sem_init(&turns[i], 0, i == 0);
}

static void sqlite_update(const unsigned char *value, int segment) {
    unsigned ticket = atomic_fetch_add(&tickets, 1);
    while (sem_wait(&turns[ticket % 64]) != 0) continue;
    sqlite.bind_blob(statement, 1, value, length, NULL);
    sqlite.bind_int(statement, 2, segment);
    /* 101: it is done. */
    must(sqlite.step(statement) == 101 && sqlite.reset(statement) == 0, "an update of SQLite");
    sem_post(&turns[(ticket + 1) % 64]);
}
