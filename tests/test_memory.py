"""Each allocation of the program is refused in turn: refused 8, or the same as with ample memory,
and nothing is lost."""

import segment_file as layout
from preload import library


def count_of(snapd, *words, **more):
    """How many allocations a run makes."""
    count = snapd.file("count")
    snapd(*words, env={"LD_PRELOAD": library("allocations"), "ALLOCATIONS_COUNT": str(count)}, **more)
    return int(count.read_text())


def test_each_allocation_is_refused(snapd, _):
    before = layout.holding((0, b""), (1, b"hi"))
    zeros = bytes(layout.LENGTH)
    text = layout.findings(before)
    for words, start, stdin, output, after in [
        (["format", "F"], zeros, b"", "formatted 0 of 1\n", layout.holding((0, b""))),
        (["put", "F"], before, b"yo", "stored 2\n", layout.holding((1, b"hi"), (2, b"yo"))),
        (["get", "F"], before, b"", "hi", before),
        (["check", "F"], before, b"", text, before),
    ]:
        snapd.file().write_bytes(start)
        allocations = count_of(snapd, *words, stdin=stdin)
        assert snapd.file().read_bytes() == after
        refused = 0
        for number in range(1, allocations + 1):
            snapd.file().write_bytes(start)
            env = {"LD_PRELOAD": library("allocations"), "ALLOCATIONS_REFUSE": str(number)}
            run = snapd(*words, stdin=stdin, env=env)
            if run.status == 0:
                run.gave(0, output)
                assert snapd.file().read_bytes() == after
            else:
                run.refused(8, "NoMemory")
                assert snapd.file().read_bytes() == start
                refused += 1
        assert refused > 2, (words, allocations, refused)


def test_each_allocation_of_a_migration_is_refused(snapd, _):
    old, zeros, done = layout.OLD.holding((2, b"two"), (1, b"one")), bytes(layout.LENGTH), layout.holding((2, b"two"))
    snapd.file("OLD").write_bytes(old)
    snapd.file().write_bytes(zeros)
    allocations = count_of(snapd, "migrate", "OLD", "F")
    refused = 0
    for number in range(1, allocations + 1):
        snapd.file().write_bytes(zeros)
        env = {"LD_PRELOAD": library("allocations"), "ALLOCATIONS_REFUSE": str(number)}
        run = snapd("migrate", "OLD", "F", env=env)
        if run.status == 0:
            run.gave(0, "migrated 0 of 1 number 2\n")
            assert snapd.file().read_bytes() == done
        else:
            run.refused(8, "NoMemory")
            assert snapd.file().read_bytes() == zeros
            refused += 1
        assert snapd.file("OLD").read_bytes() == old
    assert refused > 2, (allocations, refused)


def test_refused_help_and_words(snapd, _):
    """If memory runs out for the words, that is no fault of theirs."""
    for words in (["--help"], ["get", "--help"], ["get"], ["frobnicate"]):
        plain = snapd(*words)
        for number in range(1, count_of(snapd, *words) + 1):
            env = {"LD_PRELOAD": library("allocations"), "ALLOCATIONS_REFUSE": str(number)}
            run = snapd(*words, env=env)
            if run.status == plain.status:
                assert (run.output, run.errors.rstrip()) == (plain.output, plain.errors.rstrip())
            else:
                run.refused(8, "NoMemory")
