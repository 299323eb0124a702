"""Judges what clients saw of a memory whose segments have one writer each: is there one order of all updates and scans
that explains it, and keeps the order of those that followed each other?

It is written from the definition alone and knows nothing of the server. The rules are those of J. Anderson's shrinking
lemma for composite registers (1993), which are together the same as such an order:

    value     a scan shows under each number the value that was updated under it
    past      an update that ended before a scan began is in the scan
    future    an update that began after a scan ended isn't
    scans     of any two scans one has each update of the other, and the one that ended first has no more
    updates   where an update ended before another one began, a scan that has the latter has the former

A crash changes nothing in these rules: an update that was cut off may be there or not, and what a scan has shown stays.
"""

import bisect
from dataclasses import dataclass
from itertools import accumulate
from math import inf


@dataclass
class Update:
    """An update of a segment. One that was never answered has no end."""

    segment: int
    number: int
    value: bytes
    began: float
    ended: float = inf


@dataclass
class Scan:
    """The pairs of number and value that a scan answered."""

    began: float
    ended: float
    entries: list

    @property
    def numbers(self):
        return [number for number, _ in self.entries]


class Wrong(Exception):
    """No order explains it; the text says why."""


def judge(start, updates, scans):
    """`start` has the pair of number and value of each segment before all updates. The updates of a segment have the
    numbers after it, without gaps. Raises `Wrong` if no order explains what was seen."""
    writers = [[] for _ in start]
    for update in sorted(updates, key=lambda it: it.number):
        mine = writers[update.segment]
        if update.number != start[update.segment][0] + 1 + len(mine):
            raise Wrong(f"segment {update.segment} has no update {update.number} once")
        if mine and not mine[-1].ended <= update.began:
            raise Wrong(f"update {update.number} of segment {update.segment} began before its last one had ended")
        mine.append(update)
    for scan in scans:
        _judge_values(start, writers, scan)
        _judge_times(start, writers, scan)
    _judge_scans(scans)
    _judge_updates(start, writers, updates, scans)


def _judge_values(start, writers, scan):
    if len(scan.entries) != len(start):
        raise Wrong(f"a scan has {len(scan.entries)} segments")
    for segment, (number, value) in enumerate(scan.entries):
        at = number - start[segment][0]
        if not 0 <= at <= len(writers[segment]):
            raise Wrong(f"a scan shows number {number} of segment {segment}, which was never updated")
        if value != (writers[segment][at - 1].value if at else start[segment][1]):
            raise Wrong(f"a scan shows another value under number {number} of segment {segment}")


def _judge_times(start, writers, scan):
    for segment, number in enumerate(scan.numbers):
        at = number - start[segment][0]
        if at and writers[segment][at - 1].began > scan.ended:
            raise Wrong(f"a scan shows number {number} of segment {segment} before its update began")
        if at < len(writers[segment]) and writers[segment][at].ended < scan.began:
            raise Wrong(f"a scan shows number {number} of segment {segment}, and {number + 1} had been answered before")


def _below(first, second):
    return all(a <= b for a, b in zip(first.numbers, second.numbers))


def _judge_scans(scans):
    in_order = sorted(scans, key=lambda it: sum(it.numbers))
    for first, second in zip(in_order, in_order[1:]):
        if not _below(first, second):
            raise Wrong(f"two scans show {first.numbers} and {second.numbers}")
    # They are in one order now, so that one that ended before another began has to have the lesser sum.
    by_end = sorted(scans, key=lambda it: it.ended)
    most = list(accumulate((sum(it.numbers) for it in by_end), max))
    ends = [it.ended for it in by_end]
    for scan in scans:
        before = bisect.bisect_left(ends, scan.began)
        if before and most[before - 1] > sum(scan.numbers):
            raise Wrong(f"a scan shows {scan.numbers}, and one that ended before it began shows more")


def _judge_updates(start, writers, updates, scans):
    # For each update, how many of each segment had ended when it began.
    ends = [[it.ended for it in mine] for mine in writers]
    for scan in scans:
        latest = [writers[segment][number - start[segment][0] - 1].began
                  for segment, number in enumerate(scan.numbers) if number > start[segment][0]]
        if not latest:
            continue
        for segment, number in enumerate(scan.numbers):
            ended = start[segment][0] + bisect.bisect_left(ends[segment], max(latest))
            if ended > number:
                raise Wrong(f"a scan shows an update that began after update {ended} of segment {segment} had ended, "
                            f"and of that segment number {number}")
