/* A job that continues where it was, however it died.
 *
 *     cc -std=c99 -O2 -I .. -o resuming_job resuming_job.c && ./resuming_job HOST PORT SEGMENT STEPS
 *
 * It adds up the squares of 1 to STEPS, one step after another, and keeps step and sum in its segment of a snapd
 * server. Kill it with `kill -9` at any time and start it again with the same arguments: it continues with the next
 * step. At the end it prints the sum. HOST is `unix:PATH` and PORT 0 if the server listens on a Unix socket.
 */
#define _POSIX_C_SOURCE 200809L
#include "snapd_segment.h"

#include <inttypes.h>
#include <stdio.h>
#include <stdlib.h>

static snapd_client client;

static void fail(const char *call, snapd_result result)
{
    if (result == SNAPD_REFUSED)
        fprintf(stderr, "%s: refused %d %s %" PRIu64 "\n", call, client.refusal, snapd_refusal_name(client.refusal),
                client.detail);
    else
        fprintf(stderr, "%s: %s: %s\n", call, snapd_result_name(result), strerror(client.error));
    exit(1);
}

int main(int argc, char **argv)
{
    snapd_entry mine;
    snapd_result result;
    char state[64] = "";
    uint64_t step = 0, sum = 0, steps;
    unsigned segment;
    if (argc != 5) {
        fprintf(stderr, "usage: %s HOST PORT SEGMENT STEPS\n", argv[0]);
        return 2;
    }
    segment = (unsigned)strtoul(argv[3], NULL, 10);
    steps = strtoull(argv[4], NULL, 10);
    result = snapd_open(&client, argv[1], atoi(argv[2]), 5000, 3);
    if (result != SNAPD_OK) {
        fprintf(stderr, "%s: %s\n", argv[1], snapd_result_name(result));
        return 2;
    }
    result = snapd_get(&client, segment, &mine);
    if (result != SNAPD_OK)
        fail("get", result);
    if (mine.length < sizeof state)
        memcpy(state, mine.value, mine.length);
    if (mine.length > 0 && sscanf(state, "step %" SCNu64 " sum %" SCNu64, &step, &sum) != 2) {
        fprintf(stderr, "segment %u isn't this job's\n", segment);
        return 1;
    }
    fprintf(stderr, "begins after step %" PRIu64 "\n", step);
    while (step < steps) {
        int length;
        step++;
        sum += step * step;
        length = snprintf(state, sizeof state, "step %" PRIu64 " sum %" PRIu64, step, sum);
        result = snapd_update(&client, segment, mine.number + 1, state, (size_t)length, &mine.number);
        if (result != SNAPD_OK)
            fail("update", result);
    }
    snapd_close(&client);
    printf("%" PRIu64 "\n", sum);
    return 0;
}
