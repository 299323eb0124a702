/* The same system calls as `snapd`, in the same order, and as little as possible besides.
 *
 *     baseline put FILE          as `snapd put FILE`: stores standard input
 *     baseline get FILE          as `snapd get FILE`
 *     baseline store FILE COUNT  as `try_bench store FILE COUNT`: makes and formats FILE and stores COUNT values
 *     baseline old FILE COUNT    the same in the old format, with its two slots and its three syncs a store
 *
 * It checks what it must to find the slots, and not whether the file is well-formed.
 */
#include <fcntl.h>
#include <signal.h>
#include <stdio.h>
#include <stdlib.h>
#include <string.h>
#include <sys/stat.h>
#include <unistd.h>

enum { BLOCK = 4096, SLOTS = 3, OLD_SLOTS = 2, LENGTH = (1 + 2 * SLOTS) * BLOCK, MAX_VALUE = 4080, OPEN = 0xA5 };

static void must(int holds) {
    if (!holds) exit(1);
}

static void write_at(int file, const void *bytes, size_t count, off_t at) {
    must(pwrite(file, bytes, count, at) == (ssize_t)count);
}

static void sync_file(int file) { must(fdatasync(file) == 0); }

static unsigned long long number_in(const unsigned char *bytes, int count) {
    unsigned long long number = 0;
    for (int i = 0; i < count; i++) number = number << 8 | bytes[i];
    return number;
}

static void put_number(unsigned char *bytes, unsigned long long number, int count) {
    for (int i = count - 1; i >= 0; i--, number >>= 8) bytes[i] = number & 255;
}

/* The offset of the gate for a number, with this many slots. Its body follows it. */
static off_t gate_of(unsigned long long number, int slots) { return BLOCK + 2 * BLOCK * (off_t)(number % slots); }

static void store(int file, int slots, unsigned long long number, int spare_open, const unsigned char *value,
                  size_t length) {
    off_t gate = gate_of(number, slots);
    unsigned char body[BLOCK] = {0}, opens = OPEN, closes = 0;
    put_number(body, number, 8);
    put_number(body + 8, length, 4);
    memcpy(body + 16, value, length);
    /* The gate of the slot after the next; with two slots that is this number's own, and closing it takes a sync. */
    if (spare_open) write_at(file, &closes, 1, gate_of(slots == SLOTS ? number + 1 : number, slots));
    if (spare_open && slots == OLD_SLOTS) sync_file(file);
    write_at(file, body, BLOCK, gate + BLOCK);
    sync_file(file);
    write_at(file, &opens, 1, gate);
    sync_file(file);
}

/* The three standard streams are open, and the file is one of the right length. */
static int open_file(const char *path, int flags, off_t length) {
    struct stat found;
    for (int stream = 0; stream < 3; stream++) {
        int copy = fcntl(stream, F_DUPFD_CLOEXEC, 3);
        must(copy >= 0);
        close(copy);
    }
    int file = open(path, O_RDWR | O_NOCTTY | O_CLOEXEC | flags, 0666);
    must(file >= 0 && fstat(file, &found) == 0);
    if (flags != 0 && found.st_size == 0) must(ftruncate(file, length) == 0);
    return file;
}

static void store_many(const char *path, long count, int slots) {
    static unsigned char block[BLOCK], blocks[2 * SLOTS * BLOCK], all[LENGTH], value[1000];
    off_t length = (1 + 2 * slots) * BLOCK;
    int file = open_file(path, O_CREAT, length);
    sync_file(file);
    must(pread(file, block, BLOCK, 0) == BLOCK);
    memcpy(block, slots == SLOTS ? "SNAPSEG2\0\1" : "SNAPSEG1\0\1", 10);
    blocks[0] = OPEN;
    write_at(file, block, BLOCK - 1, 0);
    write_at(file, blocks, length - BLOCK, BLOCK);
    sync_file(file);
    write_at(file, blocks, 1, BLOCK - 1);
    sync_file(file);
    sync_file(file);
    must(pread(file, all, length, 0) == length);
    memset(value, 7, sizeof value);
    for (long number = 1; number <= count; number++) store(file, slots, number, number > 1, value, sizeof value);
    printf("stored %ld\n", count);
}

int main(int words, char **word) {
    static unsigned char all[LENGTH], value[MAX_VALUE + 1];
    must(words >= 3);
    signal(SIGPIPE, SIG_IGN);
    if (strcmp(word[1], "store") == 0 || strcmp(word[1], "old") == 0) {
        must(words == 4);
        store_many(word[2], atol(word[3]), strcmp(word[1], "old") == 0 ? OLD_SLOTS : SLOTS);
        return 0;
    }
    int file = open_file(word[2], 0, LENGTH), puts = strcmp(word[1], "put") == 0;
    size_t length = 0;
    ssize_t came;
    while (puts && length < sizeof value && (came = read(0, value + length, sizeof value - length)) > 0) length += came;
    sync_file(file);
    must(pread(file, all, LENGTH, 0) == LENGTH);
    int found = 0;
    unsigned long long number = 0;
    unsigned char *body = all;
    for (int slot = 0; slot < SLOTS; slot++) {
        off_t gate = gate_of(slot, SLOTS);
        if (all[gate] != OPEN) continue;
        unsigned long long its = number_in(all + gate + BLOCK, 8);
        if (found++ == 0 || its > number) number = its, body = all + gate + BLOCK;
    }
    if (puts) {
        char line[32];
        store(file, SLOTS, number + 1, found > 1, value, length);
        int count = snprintf(line, sizeof line, "stored %llu\n", number + 1);
        must(write(1, line, count) == count);
    } else {
        size_t held = number_in(body + 8, 4);
        must(held <= MAX_VALUE && (held == 0 || write(1, body + 16, held) == (ssize_t)held));
    }
    return 0;
}
