/* The registers of `snap_register` and the scans of `snap_memory` with the same atomics and copies, and as little as
 * possible besides.
 *
 *     baseline_memory look|scan|update SEGMENTS 0 ROUNDS LENGTH  as `try_bench memory`, without other writers
 *
 * A register has one current word (the buffer in the high 8 bits, pins in the low 56), and for each buffer a count of
 * the pins given back and the words of a record: number, length and value, and then the same of each segment. Of a
 * value only the words are copied that its length asks for. One writer and one scanner, so no scan ever borrows.
 */
#include <stdatomic.h>
#include <stdint.h>
#include <stdio.h>
#include <stdlib.h>
#include <string.h>

typedef _Atomic uint64_t word;

enum { SEGMENTS = 16, BUFFERS = SEGMENTS + 3, MAX_VALUE = 4080, BLOCK = 2 + MAX_VALUE / 8, PIN_BITS = 56 };

struct held {
    uint64_t number, length;
    unsigned char bytes[MAX_VALUE];
};

/* For each register the buffer that is pinned, plus 1, or 0. */
struct seat {
    uint64_t pins[SEGMENTS];
};

struct writer {
    struct seat seat;
    uint64_t number, current, counted[BUFFERS];
};

static int segments, buffers;
static word *current, *given, *cells;

static word *record(int j, uint64_t buffer) { return cells + (j * buffers + buffer) * (segments + 1) * BLOCK; }

static word *pinned(const struct seat *seat, int j) { return record(j, seat->pins[j] - 1); }

static uint64_t look(struct seat *seat, int j) {
    if (seat->pins[j] > 0) atomic_fetch_add(&given[j * buffers + seat->pins[j] - 1], 1);
    seat->pins[j] = (atomic_fetch_add(&current[j], 1) >> PIN_BITS) + 1;
    return *pinned(seat, j);
}

static uint64_t read_value(word *block, unsigned char *bytes) {
    uint64_t length = block[1];
    for (uint64_t q = 0; q < (length + 7) / 8; q++) {
        uint64_t eight = block[2 + q];
        memcpy(bytes + 8 * q, &eight, 8);
    }
    return length;
}

/* Looks until two collects that follow each other agree. */
static void gather(struct seat *seat, uint64_t *numbers) {
    uint64_t before[SEGMENTS];
    for (int j = 0; j < segments; j++) before[j] = look(seat, j);
    for (;;) {
        for (int j = 0; j < segments; j++) numbers[j] = look(seat, j);
        if (memcmp(before, numbers, segments * sizeof *before) == 0) return;
        memcpy(before, numbers, sizeof before);
    }
}

static void scan(struct seat *seat, struct held *out) {
    uint64_t numbers[SEGMENTS];
    gather(seat, numbers);
    for (int j = 0; j < segments; j++) {
        out[j].number = numbers[j];
        out[j].length = read_value(pinned(seat, j), out[j].bytes);
    }
}

static uint64_t find_free(const struct writer *writer) {
    for (uint64_t b = 0;; b++)
        if (b != writer->current && given[b] == writer->counted[b]) return b;
}

static word *draft_value(word *to, uint64_t number, const unsigned char *value, uint64_t length) {
    uint64_t eight = 0, whole = length / 8;
    *to++ = number;
    *to++ = length;
    for (uint64_t q = 0; q < whole; q++) {
        memcpy(&eight, value + 8 * q, 8);
        *to++ = eight;
    }
    if (8 * whole == length) return to;
    eight = 0;
    memcpy(&eight, value + 8 * whole, length - 8 * whole);
    *to++ = eight;
    return to;
}

static word *copy_block(word *to, word *from) {
    uint64_t count = 2 + (from[1] + 7) / 8;
    for (uint64_t q = 0; q < count; q++) *to++ = from[q];
    return to;
}

/* Prepares and shows an update of the first segment. */
static void update(struct writer *writer, const unsigned char *value, uint64_t length) {
    uint64_t numbers[SEGMENTS];
    gather(&writer->seat, numbers);
    uint64_t buffer = find_free(writer);
    word *to = draft_value(record(0, buffer), ++writer->number, value, length);
    for (int j = 0; j < segments; j++) to = copy_block(to, pinned(&writer->seat, j));
    uint64_t found = atomic_exchange(&current[0], buffer << PIN_BITS);
    writer->counted[writer->current] += found - (writer->current << PIN_BITS);
    writer->current = buffer;
}

static void *zeros(size_t count, size_t size) {
    void *room = calloc(count, size);
    if (!room) exit(1);
    return room;
}

int main(int words, char **argument) {
    static unsigned char value[MAX_VALUE];
    static struct seat scanner;
    static struct writer writer;
    static struct held out[SEGMENTS];
    if (words != 6) return 2;
    long rounds = atol(argument[4]);
    uint64_t length = atol(argument[5]);
    segments = atoi(argument[2]);
    if (segments < 1 || segments > SEGMENTS || length > MAX_VALUE) return 2;
    buffers = segments + 3;
    current = zeros(segments, sizeof *current);
    given = zeros(segments * buffers, sizeof *given);
    cells = zeros((size_t)segments * buffers * (segments + 1) * BLOCK, sizeof *cells);
    memset(value, 7, length);
    for (int j = 0; j < segments; j++) draft_value(record(j, 0), 0, value, length);
    for (long round = 0; round < rounds; round++) {
        if (strcmp(argument[1], "look") == 0) {
            out[0].number = look(&scanner, 0);
            out[0].length = read_value(pinned(&scanner, 0), out[0].bytes);
        } else if (strcmp(argument[1], "scan") == 0) {
            scan(&scanner, out);
        } else {
            update(&writer, value, length);
        }
        __asm__ volatile("" ::: "memory");
    }
    printf("%ld\n", rounds);
    return 0;
}
