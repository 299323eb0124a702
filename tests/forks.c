/* A client in C that is used before two processes are forked off, each of which updates a segment of its own.
 *
 *     forks HOST PORT COUNT
 *
 * Status 0 where each update of both was answered by its own number, and the first process is still served.
 */
#define _POSIX_C_SOURCE 200809L
#include <stdio.h>
#include <stdlib.h>
#include <sys/wait.h>

#include "snapd.h"

static int updates(snapd_client *client, unsigned segment, uint64_t count)
{
    for (uint64_t number = 1; number <= count; number++) {
        uint64_t stored;
        snapd_result result = snapd_update(client, segment, number, "value", 5, &stored);
        if (result != SNAPD_OK || stored != number) {
            fprintf(stderr, "segment %u: result %d, stored %lu and not %lu\n", segment, (int)result,
                    (unsigned long)stored, (unsigned long)number);
            return 1;
        }
    }
    return 0;
}

int main(int argc, char **argv)
{
    static snapd_client client;
    static snapd_snapshot now;
    uint64_t count = argc == 4 ? (uint64_t)atoi(argv[3]) : 0;
    int failed = 0;
    if (argc != 4 || snapd_open(&client, argv[1], atoi(argv[2]), 60000, 1) != SNAPD_OK
        || snapd_scan(&client, &now) != SNAPD_OK)
        return 2;
    for (unsigned segment = 0; segment < 2; segment++)
        if (fork() == 0)
            return updates(&client, segment, count);
    for (int child = 0; child < 2; child++) {
        int status = 0;
        failed |= wait(&status) < 0 || status != 0;
    }
    failed |= snapd_scan(&client, &now) != SNAPD_OK || now.entry[0].number != count || now.entry[1].number != count;
    snapd_close(&client);
    return failed;
}
