"""What `try_parts` prints of faults and crashes is what independent models print: the tables of those of a segment, and
of an opening of all files and random bytes, and the numbers after each of 200 crashes of writers in threads. The
end-to-end tests want it built (`make programs`)."""

from itertools import zip_longest

from trials import foretold, printed


def compare(word):
    pairs = zip_longest(printed(word).splitlines(), foretold(word).splitlines())
    wrong = [(line, wanted) for line, wanted in pairs if line != wanted]
    assert not wrong, (word, len(wrong), wrong[0])


def test_faults_and_crashes_of_a_segment(_, __):
    compare("segment-sweep")


def test_faults_and_stops_of_an_opening_and_random_bytes(_, __):
    compare("restart-sweep")


def test_numbers_after_each_crash_of_threads(_, __):
    compare("restart-threads")
