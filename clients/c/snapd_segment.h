/* snapd_segment.h: calls on one segment of a snapd server, and a wait for the numbers of some. It needs only snapd.h,
 * and it allocates nothing.
 *
 *     snapd_entry mine;
 *     uint64_t number, wanted[SNAPD_MAX_SEGMENTS] = {18, 17};
 *     snapd_status_list seen;
 *     if (snapd_get(&client, 0, &mine) == SNAPD_OK                            // where the job was
 *         && snapd_put(&client, 0, "step 18", 7, &number) == SNAPD_OK)        // it is on the server's disk
 *         snapd_wait(&client, 1u << 0 | 1u << 1, wanted, 30000, &seen);       // segment 0 has come to 18, and 1 to 17
 */
#ifndef SNAPD_SEGMENT_H
#define SNAPD_SEGMENT_H

#include "snapd.h"

#ifdef __cplusplus
extern "C" {
#endif

/* Number and value of one segment, 0 to 15: else SNAPD_BAD_CALL. *entry is as a scan's: it is valid until the client's
 * next scan or get, and may be put or updated in between. It has number 0 and no byte if the result isn't SNAPD_OK. */
SNAPD_API snapd_result snapd_get(snapd_client *client, unsigned segment, snapd_entry *entry);

/* Stores a value as the next one: asks for the segment's number by a status, and updates with the next number. *number
 * is the one that was sent, or 0 if none was. A segment above 15 is SNAPD_BAD_CALL.
 *
 * A refusal isn't tried again. SNAPD_CONFLICT and SNAPD_OUT_OF_STEP say that another client stored a value between the
 * two requests; a value that it stored before is overwritten unseen. So a job that has to notice another writer keeps
 * its number, and calls snapd_update. If there was no answer the value may have been stored: send it again by
 * snapd_update under *number, and it is stored once. Another snapd_put would store it a second time. */
SNAPD_API snapd_result snapd_put(snapd_client *client, unsigned segment, const void *value, size_t length,
                                 uint64_t *number);

/* Waits until each segment in the mask has reached its number or passed it: if bit i of the mask is 1, segment i
 * reaches numbers[i]. It asks for the status, rests for 1 ms, asks again, and rests twice as long each time, up to 100
 * ms; near the end for half of the remaining time. *list is the last status.
 *
 * SNAPD_TIMED_OUT after `timeout` milliseconds: *list shows which segments are below their numbers; its count is 0 if
 * no poll was answered in time. SNAPD_REFUSED with SNAPD_NO_SEGMENT at once if the server hasn't one of them,
 * SNAPD_BAD_REPLY if a number falls, and SNAPD_NOT_ANSWERED if a poll has no answer after the client's tries. A mask
 * that snapd_scan_some doesn't take, or a timeout below 1, is SNAPD_BAD_CALL. */
SNAPD_API snapd_result snapd_wait(snapd_client *client, unsigned mask, const uint64_t *numbers, int timeout,
                                  snapd_status_list *list);

#if defined SNAPD_IMPLEMENTATION || !defined SNAPD_LINKED

SNAPD_API snapd_result snapd_get(snapd_client *client, unsigned segment, snapd_entry *entry)
{
    snapd_part part;
    snapd_result result;
    memset(entry, 0, sizeof *entry);
    if (segment >= SNAPD_MAX_SEGMENTS)
        return SNAPD_BAD_CALL;
    result = snapd_scan_some(client, 1U << segment, &part);
    if (result == SNAPD_OK)
        *entry = part.entry[segment];
    return result;
}

/* The refusal that a request gets which names a segment that the server hasn't. */
static inline snapd_result snapd_no_segment(snapd_client *client, int count)
{
    client->refusal = SNAPD_NO_SEGMENT;
    client->detail = (uint64_t)count;
    return SNAPD_REFUSED;
}

SNAPD_API snapd_result snapd_put(snapd_client *client, unsigned segment, const void *value, size_t length,
                                 uint64_t *number)
{
    snapd_status_list list;
    snapd_result result;
    uint64_t stored;
    *number = 0;
    if (segment >= SNAPD_MAX_SEGMENTS || length > SNAPD_MAX_SENT)
        return SNAPD_BAD_CALL;
    result = snapd_status(client, &list);
    if (result != SNAPD_OK)
        return result;
    if (segment >= (unsigned)list.count)
        return snapd_no_segment(client, list.count);
    *number = list.standing[segment].number + 1;
    return snapd_update(client, segment, *number, value, length, &stored);
}

/* Whether a segment in the mask is below its number. */
static inline int snapd_lags(const snapd_status_list *list, unsigned mask, const uint64_t *numbers)
{
    for (int i = 0; i < list->count; i++)
        if (mask >> i & 1 && list->standing[i].number < numbers[i])
            return 1;
    return 0;
}

/* One poll of a wait: a status with all segments of the mask, none of them at a smaller number than at the last one. */
static inline snapd_result snapd_look(snapd_client *client, unsigned mask, snapd_status_list *list)
{
    snapd_status_list now;
    snapd_result result = snapd_status(client, &now);
    if (result != SNAPD_OK)
        return result;
    if (mask >> now.count != 0)
        return snapd_no_segment(client, now.count);
    for (int i = 0; i < list->count && i < now.count; i++) {
        if (mask >> i & 1 && now.standing[i].number < list->standing[i].number) {
            snapd_close(client);
            return SNAPD_BAD_REPLY;
        }
    }
    *list = now;
    return SNAPD_OK;
}

SNAPD_API snapd_result snapd_wait(snapd_client *client, unsigned mask, const uint64_t *numbers, int timeout,
                                  snapd_status_list *list)
{
    int64_t end = snapd_now() + timeout, pause = 1;
    snapd_result result;
    memset(list, 0, sizeof *list);
    if (mask == 0 || mask >> SNAPD_MAX_SEGMENTS != 0 || timeout < 1)
        return SNAPD_BAD_CALL;
    for (;;) {
        int64_t left;
        client->until = end;
        result = snapd_look(client, mask, list);
        client->until = INT64_MAX;
        left = end - snapd_now();
        if (result == SNAPD_TIMED_OUT && left > 0)
            return SNAPD_NOT_ANSWERED;
        if (result != SNAPD_OK || !snapd_lags(list, mask, numbers))
            return result;
        if (left <= 1)
            return SNAPD_TIMED_OUT;
        snapd_rest(pause < left / 2 ? pause : left / 2);
        pause = pause < 50 ? 2 * pause : 100;
    }
}

#endif

#ifdef __cplusplus
}
#endif

#endif
