"""Crashes, replayed from outside.

How it works. A real `put` (or `format`, or a migration: tests/test_migrate.py) is run once, and its writes and syncs on
the file are recorded with their bytes.
Then the machine is made to crash at every point of that record: each write before the last sync has reached the disk,
and each write after it is pending. A disk may have kept any part of what is pending, so many files are made, in
which the pending ranges hold

- nothing of it, or all of it; - a random subset of its 512-byte sectors, or of its single bytes; - all zeros, all A5,
or random bytes: more than a disk does, since the file must survive even that.

On each such file `get` has to answer the value from before the call or the new one, `check` has to agree with the
format, and the next `put` has to work. Once the last sync is done, only the new value will do. The seed is printed by
the runner. The tests know the file format and nothing of the program's code or proof.
"""

import fcntl
import os
import signal
import subprocess
import time

import recorder
import segment_file as layout
from recorder import SYNC, Write
from waiting import gets_on, moment


def put_in(data, write, kept=None):
    data = bytearray(data)
    data[write.at : write.at + len(write.bytes)] = write.bytes if kept is None else kept
    return bytes(data)


def cuts(before, calls):
    """For every point of the record: the bytes that a sync made last, the pending writes, and whether all is done."""
    durable, pending = before, []
    yield durable, [], not calls
    for count, call in enumerate(calls, start=1):
        if call == SYNC:
            for write in pending:
                durable = put_in(durable, write)
            pending = []
        elif isinstance(call, Write):
            pending.append(call)
        yield durable, list(pending), count == len(calls)


def torn(durable, write, random, how):
    """What the disk holds of the write's range."""
    old, new = durable[write.at : write.at + len(write.bytes)], write.bytes
    if how == "none":
        return old
    if how == "all":
        return new
    if how == "zeros":
        return bytes(len(new))
    if how == "opens":
        return b"\xa5" * len(new)
    if how == "noise":
        return random.randbytes(len(new))
    step = 512 if how == "sectors" else 1
    kept = bytearray(old)
    for start in range(0, len(new), step):
        if random.random() < 0.5:
            kept[start : start + step] = new[start : start + step]
    return bytes(kept)


HOW = ["none", "all", "zeros", "opens", "noise", "sectors", "sectors", "bytes", "bytes"]


def outcomes(before, calls, random):
    """Every file that is tried, with whether the calls were all done."""
    for durable, pending, is_done in cuts(before, calls):
        for how in HOW if pending else ["none"]:
            left = durable
            for write in pending:
                left = put_in(left, write, torn(durable, write, random, how))
            yield left, is_done


def test_every_point_of_a_put(snapd, random):
    for slots, value in [
        ([(0, b"")], b"hi"),
        ([(0, b""), (1, b"hi")], b"yo"),
        ([(1, b"hi"), (2, b"yo")], b""),
        ([(2, b"yo"), (3, b"third")], b"n" * 4_080),
        ([(6, b"old" * 100), (5, b"older")], b"n" * 4_080),
        ([(6, b"o" * 4_080), (7, b"e" * 4_080)], b""),
    ]:
        before = layout.holding(*slots)
        was = layout.answer_of(before)
        will = (was[0] + 1, value)
        snapd.file().write_bytes(before)
        done, calls = recorder.run(snapd, "put", "F", stdin=value)
        done.gave(0, f"stored {will[0]}\n")
        # One sync to open the file, and two for the store.
        assert [call for call in calls if call == SYNC] == [SYNC] * 3, calls
        seen = set()
        for data, is_done in outcomes(before, calls, random):
            snapd.file().write_bytes(data)
            answer = layout.answer_of(data)
            assert answer in ((will,) if is_done else (was, will)), (answer, was, will)
            snapd("get", "F").gave(0, answer[1])
            snapd("check", "F").gave(0, layout.findings(data))
            assert snapd.file().read_bytes() == data
            seen.add(answer)
        assert seen == {was, will}


def test_every_point_of_a_format(snapd, random):
    for before in (bytes(layout.LENGTH), bytes([0x5A]) * layout.LENGTH):
        snapd.file().write_bytes(before)
        done, calls = recorder.run(snapd, "format", "F")
        done.gave(0, "formatted 0 of 1\n")
        for data, is_done in outcomes(before, calls, random):
            snapd.file().write_bytes(data)
            if layout.header_of(data) == "unformatted":
                assert not is_done
                snapd("get", "F").refused(11, "Unformatted", layout.UNFORMATTED)
                snapd("format", "F").gave(0, "formatted 0 of 1\n")
            else:
                snapd("format", "F").refused(12, "AlreadyFormatted", layout.FORMATTED)
            snapd("get", "F").gave(0, b"")
            snapd("put", "F", stdin="hi").gave(0, "stored 1\n")


def test_every_point_of_an_init(snapd, random):
    """Of a file that isn't there, and of one that a crash left. The next init makes it, or keeps it."""
    file, name = snapd.file("D/segment-00.seg"), "D/segment-00.seg"
    snapd("init", "D").gave(0, "formatted 0 of 1\n")
    for before in (None, bytes(layout.LENGTH), bytes([0x5A]) * layout.LENGTH):
        file.unlink()
        if before is not None:
            file.write_bytes(before)
        done, calls = recorder.run(snapd, "init", "D", file=name)
        done.gave(0, "formatted 0 of 1\n")
        seen = set()
        for data, is_done in outcomes(before or bytes(layout.LENGTH), calls, random):
            file.write_bytes(data)
            is_kept = layout.header_of(data) == (0, 1)
            assert is_kept or (layout.header_of(data) == "unformatted" and not is_done)
            snapd("init", "D").gave(0, "kept 0 of 1 number 0\n" if is_kept else "formatted 0 of 1\n")
            assert file.read_bytes() == layout.holding((0, b""))
            seen.add(is_kept)
        assert seen == {True, False}


def test_crash_upon_crash(snapd, random):
    """A series of puts each of which ends in a crash, on the file that the last crash left."""
    snapd.formatted()
    was = (0, b"")
    for _ in range(150):
        before = snapd.file().read_bytes()
        will = (was[0] + 1, random.randbytes(random.choice([0, 1, 100, 4_080])))
        done, calls = recorder.run(snapd, "put", "F", stdin=will[1])
        done.gave(0, f"stored {will[0]}\n")
        data, is_done = random.choice(list(outcomes(before, calls, random)))
        snapd.file().write_bytes(data)
        answer = layout.answer_of(data)
        assert answer in ((will,) if is_done else (was, will)), (answer, was, will)
        snapd("get", "F").gave(0, answer[1])
        was = answer


# What the file holds before a `put`, and how many calls it makes: two open the file, four check whether it was
# overwritten, and the store makes four, or five if the number before is open too.
STORES = [([(0, b"")], 10), ([(0, b""), (1, b"one")], 11), ([(2, b"two"), (1, b"one")], 11), ([(2, b"two")], 10)]


def has_failed(run):
    """It was refused as 13, and says which call failed and why."""
    reasons = [f"{call}: Input/output error (os error 5)" for call in ("read", "write", "sync")]
    reasons += ["read: failed to fill whole buffer", "write: failed to write whole buffer"]
    reasons += [
        "write: another program wrote it or cut it, and it is left so: never copy onto a file in use: "
        "snapd load makes a new folder of a dump"
    ]
    told = [f"snapd: refused 13 DeviceFailed\nsnapd: F: {why}: look after its disk, and try again\n" for why in reasons]
    assert (run.status, run.output) == (3, b"") and run.errors in told, run


def calls_of(snapd, before, *words, **more):
    """How many calls a run makes on the file."""
    count = 1
    while True:
        snapd.file().write_bytes(before)
        run, _ = recorder.run(snapd, *words, fault=f"{count} fail", **more)
        if run.status == 0:
            return count - 1
        has_failed(run)
        count += 1


def test_every_call_fails(snapd, _):
    """Each call on the file in turn fails, or takes no byte: refused 13, and the file holds the old value or the new. A
    call that moves only some bytes, or that a signal interrupts, is continued."""
    for slots, calls in STORES:
        before = layout.holding(*slots)
        was = layout.answer_of(before)
        will = (was[0] + 1, b"new")
        # A sync and a read to open the file, and then the calls of the store.
        assert calls_of(snapd, before, "put", "F", stdin="new") == calls
        for call in range(1, calls + 1):
            for kind in ("fail", "none", "short", "interrupt"):
                snapd.file().write_bytes(before)
                run, made = recorder.run(snapd, "put", "F", stdin="new", fault=f"{call} {kind}")
                answer = layout.answer_of(snapd.file().read_bytes())
                if run.status == 0:
                    assert kind != "fail"
                    run.gave(0, f"stored {will[0]}\n")
                    assert answer == will
                else:
                    assert kind in ("fail", "none")
                    has_failed(run)
                    assert answer in (was, will), (call, kind, answer)
                snapd("get", "F").gave(0, answer[1])
        snapd.file().write_bytes(before)
        assert calls_of(snapd, before, "get", "F") == 2
        assert calls_of(snapd, before, "check", "F") == 1
    assert calls_of(snapd, bytes(layout.LENGTH), "format", "F") == 7


def test_killed_at_every_call(snapd, _):
    """The process is killed before each call on the file, or in the middle of a write."""
    for slots, calls in STORES:
        before = layout.holding(*slots)
        was = layout.answer_of(before)
        will = (was[0] + 1, b"new" * 1_000)
        for call in range(1, calls + 1):
            for kind in ("kill", "torn"):
                snapd.file().write_bytes(before)
                run, _ = recorder.run(snapd, "put", "F", stdin=will[1], fault=f"{call} {kind}")
                assert run.status in (-9, 0) and (run.status == -9 or kind == "torn"), run
                answer = layout.answer_of(snapd.file().read_bytes())
                assert answer in (was, will), (call, kind, answer)
                snapd("get", "F").gave(0, answer[1])
                snapd("put", "F", stdin="after").gave(0, f"stored {answer[0] + 1}\n")


def test_killed_two_hundred_times(snapd, random):
    """A loop of puts is killed two hundred times, each time a moment after some of them were acknowledged: `get`
    answers the last value that was, or the one that was in flight."""
    snapd.formatted()
    loop = 'n=$1; while :; do n=$((n + 1)); printf "value %d" $n | "$0" put F; done'
    number = in_flight = 0
    for _ in range(200):
        output = snapd.file("output")
        began = time.monotonic()
        with open(output, "wb") as written:
            run = subprocess.Popen(
                ["sh", "-c", loop, snapd.path, str(number)], cwd=snapd.folder, stdout=written, stderr=subprocess.PIPE,
                start_new_session=True
            )
        wanted = random.randrange(4)
        gets_on(lambda: number + len(acknowledged(output)), wanted, lambda: run.poll() is not None)
        # About as long as a put takes.
        moment(random, min(0.1, (time.monotonic() - began) / (wanted + 1)))
        os.killpg(run.pid, signal.SIGKILL)
        # All processes of the loop have ended once its standard error is closed, and its lock ends with them.
        said = run.communicate()[1]
        assert said == b"", said
        with open(snapd.file(), "rb") as file:
            fcntl.flock(file, fcntl.LOCK_SH)
        told = acknowledged(output)
        assert told == list(range(number + 1, number + 1 + len(told))) and len(told) >= wanted, (number, told)
        last = number + len(told)
        answer = layout.answer_of(snapd.file().read_bytes())
        assert answer is not None and answer[0] in (last, last + 1), (answer, last)
        snapd("get", "F").gave(0, b"value %d" % answer[0] if answer[0] else b"")
        in_flight += answer[0] == last + 1
        number = answer[0]
    print(f"  {number} puts; {in_flight} were stored when the kill came, and not acknowledged")


def acknowledged(output):
    """The numbers in the whole lines that puts have printed."""
    lines = output.read_text().splitlines(keepends=True)
    return [int(line.removeprefix("stored ")) for line in lines if line.endswith("\n")]
