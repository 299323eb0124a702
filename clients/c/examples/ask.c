/* One request, from the shell.
 *
 *     cc -std=c99 -O2 -I .. -o ask ask.c
 *     ./ask HOST PORT TIMEOUT TRIES update SEGMENT NUMBER TEXT | scan | part MASK | status
 *                                   | put SEGMENT TEXT | get SEGMENT
 *                                   | wait MILLISECONDS SEGMENT NUMBER [SEGMENT NUMBER ..]
 *
 * MASK is hexadecimal, and its bit i names segment i. HOST is `unix:PATH` and PORT 0 where the server listens on a Unix
 * socket. It prints `stored NUMBER`, or a line for each segment. Status 0 done, 1 no answer, 2 the words, 3 refused.
 */
#define _POSIX_C_SOURCE 200809L
#include "snapd_segment.h"

#include <inttypes.h>
#include <stdio.h>
#include <stdlib.h>

static snapd_client client;

static void print_hex(const unsigned char *bytes, uint32_t length)
{
    if (length == 0)
        printf("-");
    for (uint32_t i = 0; i < length; i++)
        printf("%02x", bytes[i]);
}

static void print_entry(int segment, const snapd_entry *entry)
{
    printf("segment %d number %" PRIu64 " value ", segment, entry->number);
    print_hex(entry->value, entry->length);
    printf("\n");
}

static snapd_result scan(void)
{
    snapd_snapshot now;
    snapd_result result = snapd_scan(&client, &now);
    for (int i = 0; result == SNAPD_OK && i < now.count; i++)
        print_entry(i, &now.entry[i]);
    return result;
}

static snapd_result part(const char *mask)
{
    snapd_part now;
    snapd_result result = snapd_scan_some(&client, (unsigned)strtoul(mask, NULL, 16), &now);
    for (int i = 0; i < SNAPD_MAX_SEGMENTS; i++)
        if (now.mask >> i & 1)
            print_entry(i, &now.entry[i]);
    return result;
}

static void print_standing(int segment, const snapd_standing *standing)
{
    printf("segment %d number %" PRIu64 " fenced %d\n", segment, standing->number, standing->fenced);
}

static snapd_result status(void)
{
    snapd_status_list list;
    snapd_result result = snapd_status(&client, &list);
    for (int i = 0; result == SNAPD_OK && i < list.count; i++)
        print_standing(i, &list.standing[i]);
    return result;
}

static snapd_result update(const char *segment, const char *number, const char *text)
{
    uint64_t stored;
    snapd_result result = snapd_update(&client, (unsigned)strtoul(segment, NULL, 10), strtoull(number, NULL, 10), text,
                                       strlen(text), &stored);
    if (result == SNAPD_OK)
        printf("stored %" PRIu64 "\n", stored);
    return result;
}

static snapd_result put(const char *segment, const char *text)
{
    uint64_t number;
    snapd_result result = snapd_put(&client, (unsigned)strtoul(segment, NULL, 10), text, strlen(text), &number);
    if (result == SNAPD_OK)
        printf("stored %" PRIu64 "\n", number);
    else if (number > 0)
        fprintf(stderr, "sent as %" PRIu64 ": ", number);
    return result;
}

static snapd_result get(const char *segment)
{
    snapd_entry entry;
    snapd_result result = snapd_get(&client, (unsigned)strtoul(segment, NULL, 10), &entry);
    if (result == SNAPD_OK)
        print_entry(atoi(segment), &entry);
    return result;
}

/* It prints what it saw last of each segment that is named, in time or not. */
static snapd_result wait_for(const char *timeout, int count, char **words)
{
    uint64_t numbers[SNAPD_MAX_SEGMENTS] = {0};
    unsigned mask = 0;
    snapd_status_list list;
    snapd_result result;
    for (int i = 0; i + 1 < count; i += 2) {
        unsigned segment = (unsigned)strtoul(words[i], NULL, 10);
        if (segment >= SNAPD_MAX_SEGMENTS)
            return SNAPD_BAD_CALL;
        mask |= 1U << segment;
        numbers[segment] = strtoull(words[i + 1], NULL, 10);
    }
    result = snapd_wait(&client, mask, numbers, atoi(timeout), &list);
    for (int i = 0; i < list.count; i++)
        if (mask >> i & 1)
            print_standing(i, &list.standing[i]);
    return result;
}

static int status_of(snapd_result result)
{
    if (result == SNAPD_OK)
        return 0;
    if (result == SNAPD_REFUSED) {
        const char *name = snapd_refusal_name(client.refusal);
        fprintf(stderr, "refused %d %s %" PRIu64 "\n", client.refusal, name, client.detail);
        return 3;
    }
    fprintf(stderr, "%s\n", snapd_result_name(result));
    return result == SNAPD_BAD_CALL ? 2 : 1;
}

int main(int argc, char **argv)
{
    snapd_result opened;
    if (argc < 6) {
        fprintf(stderr, "usage: %s HOST PORT TIMEOUT TRIES update SEGMENT NUMBER TEXT | scan | part MASK | status | "
                "put SEGMENT TEXT | get SEGMENT | wait MILLISECONDS SEGMENT NUMBER [SEGMENT NUMBER ..]\n", argv[0]);
        return 2;
    }
    opened = snapd_open(&client, argv[1], atoi(argv[2]), atoi(argv[3]), atoi(argv[4]));
    if (opened != SNAPD_OK)
        return status_of(opened);
    if (argc == 6 && strcmp(argv[5], "scan") == 0)
        return status_of(scan());
    if (argc == 6 && strcmp(argv[5], "status") == 0)
        return status_of(status());
    if (argc == 7 && strcmp(argv[5], "part") == 0)
        return status_of(part(argv[6]));
    if (argc == 9 && strcmp(argv[5], "update") == 0)
        return status_of(update(argv[6], argv[7], argv[8]));
    if (argc == 8 && strcmp(argv[5], "put") == 0)
        return status_of(put(argv[6], argv[7]));
    if (argc == 7 && strcmp(argv[5], "get") == 0)
        return status_of(get(argv[6]));
    if (argc >= 9 && argc % 2 == 1 && strcmp(argv[5], "wait") == 0)
        return status_of(wait_for(argv[6], argc - 7, argv + 7));
    fprintf(stderr, "%s: none of update SEGMENT NUMBER TEXT, scan, part MASK, status, put SEGMENT TEXT, get SEGMENT "
            "and wait MILLISECONDS SEGMENT NUMBER [SEGMENT NUMBER ..]\n", argv[5]);
    return 2;
}
