"""`migrate`: what it carries over, what it refuses and in which order, and that a crash or a fault in the middle of it
loses nothing. The old file is never changed."""

import os
import pathlib
import signal
import subprocess
import time

import recorder
import segment_file as layout
from recorder import SYNC, Write
from segment_file import BLOCK, NOW, OLD
from test_commands import REASONS, advised, of_another, unformatted
from test_crashes import outcomes
from test_serve_disks import Disk
from waiting import moment

OF_OLD = "OLD: refused as the old file: "
OF_NEW = "F: refused as the new file: "
# The second lines about a file, after that of its refusal.
OLD_WRONG = OF_OLD + f"it isn't the file of segment 0 of 1 with the {OLD.length} bytes of the old format"
OLD_UNFORMATTED = OF_OLD + "it was never formatted, or its header is gone: look for a backup"
OLD_DAMAGED = OF_OLD + "its slots give no answer: look for a backup"
NEW_WRONG = OF_NEW + f"it is neither empty nor of the {NOW.length} bytes of a segment file: give another path"
AS_NEW = OF_NEW + "it is formatted already: see snapd check F"


def old_file(snapd, *values, index=0, count=1, name="OLD"):
    file = snapd.file(name)
    file.write_bytes(OLD.holding(*values, index=index, count=count))
    return file


def test_migrates(snapd, _):
    old = old_file(snapd, (0, b""), (1, b"hi"))
    data = old.read_bytes()
    snapd("migrate", "OLD", "F").gave(0, "migrated 0 of 1 number 1\n")
    snapd("check", "F").gave(
        0, "header index 0 count 1\nslot 0 closed\nslot 1 open number 1 length 2\nslot 2 closed\nanswer number 1\n"
    )
    snapd("get", "F").gave(0, "hi")
    assert snapd.file().read_bytes() == layout.holding((1, b"hi"))
    snapd("put", "F", stdin="yo").gave(0, "stored 2\n")
    snapd("get", "F").gave(0, "yo")
    # Again: the new file holds the value already.
    snapd("migrate", "OLD", "F").refused(12, "AlreadyFormatted", AS_NEW)
    snapd("get", "F").gave(0, "yo")
    assert old.read_bytes() == data


def test_every_answer_is_carried_over(snapd, random):
    """Whatever an old file answers, the new one answers, in the slot of its number, and a later store follows it."""
    last = 2**63 - 1
    for values in [
        [(0, b"")],
        [(1, b"one")],
        [(2, b"x" * 4_080), (1, b"one")],
        [(5, b"five"), (6, b"six")],
        [(7, b"\xa5" * 100), (6, b"six")],
        [(last - 1, b"u")],
        [(last, b"end"), (last - 1, b"u")],
    ]:
        number, value = max(values)
        for index, count in ((0, 1), (2, 3), (15, 16)):
            options = ("--index", index, "--count", count)
            old = old_file(snapd, *values, index=index, count=count)
            data = old.read_bytes()
            snapd.file().unlink(missing_ok=True)
            snapd("migrate", "OLD", "F", *options).gave(0, f"migrated {index} of {count} number {number}\n")
            assert snapd.file().read_bytes() == NOW.holding((number, value), index=index, count=count)
            assert old.read_bytes() == data
            snapd("get", "F", *options).gave(0, value)
            if number < last:
                snapd("put", "F", *options, stdin="next").gave(0, f"stored {number + 1}\n")
            else:
                snapd("put", "F", *options, stdin="next").refused(9, "Exhausted")


def test_new_files_that_are_taken(snapd, _):
    """One that isn't there, an empty one, and one of the right length that was never formatted."""
    old_file(snapd, (3, b"three"), (2, b"two"))
    for start in (None, b"", bytes(NOW.length), b"\x5a" * NOW.length):
        snapd.file().unlink(missing_ok=True)
        if start is not None:
            snapd.file().write_bytes(start)
        snapd("migrate", "OLD", "F").gave(0, "migrated 0 of 1 number 3\n")
        assert snapd.file().read_bytes() == NOW.holding((3, b"three"))


def test_old_files_are_told_what_to_do(snapd, _):
    """A command on a file of the old format is refused, changes nothing, and says what to do."""
    old = old_file(snapd, (0, b""), (1, b"hi"), name="path with spaces \u00fc")
    data, name = old.read_bytes(), old.name
    for command in ("format", "put", "get", "check"):
        snapd(command, name, stdin="yo").refused(14, "WrongFile", layout.advice(name))
        assert old.read_bytes() == data
    # By its length alone.
    old.write_bytes(bytes(OLD.length))
    snapd("get", name).refused(14, "WrongFile", layout.advice(name))
    # Another wrong file is no file of the old format.
    snapd.formatted()
    snapd("get", "F", "--count", 2).refused(14, "WrongFile", of_another(0, 2))


def test_order_of_faults(snapd, _):
    """Paths first, the old file's and then the new one's; then both lengths; then the old file's contents; then whether
    the new file is formatted."""
    whole = OLD.holding((0, b""), (1, b"hi"))
    taken = NOW.holding((0, b""))

    def fails(old, new, path="F"):
        for name, data in (("OLD", old), ("F", new)):
            snapd.file(name).unlink(missing_ok=True)
            if data is not None:
                snapd.file(name).write_bytes(data)
        run = snapd("migrate", "OLD", path)
        if old is not None:
            assert snapd.file("OLD").read_bytes() == old
        if new is not None:
            assert snapd.file().read_bytes() == new
        return run

    missing = "No such file or directory"
    for new in (None, b"x", taken, bytes(NOW.length)):
        fails(None, new).failed_with(1, f"OLD: {missing}")
        assert new is not None or not snapd.file().exists()
    fails(None, None, "nowhere/F").failed_with(1, f"OLD: {missing}")
    for old in (b"x", b"", NOW.holding((0, b"")), bytes(OLD.length), whole):
        fails(old, None, "nowhere/F").failed_with(1, f"nowhere/F: {missing}")
    for old in (b"x", b"", bytes(OLD.length - 1), bytes(OLD.length + 1), NOW.holding((0, b""))):
        for new in (b"x", bytes(OLD.length), taken, bytes(NOW.length)):
            fails(old, new).refused(14, "WrongFile", OLD_WRONG)
    for old in (bytes(OLD.length), whole, OLD.holding(), OLD.holding((4, b"a"), (7, b"b"))):
        for new in (b"x", bytes(OLD.length), bytes(NOW.length - 1), bytes(NOW.length + 1)):
            fails(old, new).refused(14, "WrongFile", NEW_WRONG)
    for new in (bytes(NOW.length), taken):
        fails(bytes(OLD.length), new).refused(11, "Unformatted", OLD_UNFORMATTED)
        fails(NOW.holding((0, b""))[: OLD.length], new).refused(14, "WrongFile", OLD_WRONG)
        fails(OLD.holding((0, b""), index=1, count=2), new).refused(14, "WrongFile", OLD_WRONG)
        fails(OLD.holding(), new).refused(10, "Damaged", OLD_DAMAGED)
        fails(OLD.holding((4, b"a"), (7, b"b")), new).refused(10, "Damaged", OLD_DAMAGED)
        fails(OLD.image([(3, b"misplaced")]), new).refused(10, "Damaged", OLD_DAMAGED)
    fails(whole, taken).refused(12, "AlreadyFormatted", AS_NEW)
    fails(whole, bytes(BLOCK - 1) + b"\xa5" + bytes(NOW.length - BLOCK)).refused(12, "AlreadyFormatted", AS_NEW)
    # The old and the new file turned round.
    snapd.file("OLD").write_bytes(whole)
    snapd.file().write_bytes(taken)
    snapd("migrate", "F", "OLD").refused(14, "WrongFile", OLD_WRONG.replace("OLD:", "F:"))


def test_paths_that_fail(snapd, _):
    old = old_file(snapd, (1, b"hi"))
    snapd.file("folder").mkdir()
    snapd("migrate", "folder", "F").failed_with(1, "folder: Is a directory")
    assert not snapd.file().exists()
    snapd("migrate", "OLD", "folder").failed_with(1, "folder: Is a directory")
    # A file isn't carried over to itself.
    data = old.read_bytes()
    snapd("migrate", "OLD", "OLD").failed_with(1, "OLD: it is the same file as OLD: each file is named once")
    os.link(old, snapd.file("LINK"))
    snapd("migrate", "OLD", "LINK").failed_with(1, "LINK: it is the same file as OLD: each file is named once")
    assert old.read_bytes() == data


def test_output_that_fails(snapd, _):
    """The file is made, and its line is lost: status 1."""
    old_file(snapd, (0, b""), (1, b"hi"))
    if pathlib.Path("/dev/full").exists():
        with open("/dev/full", "wb") as full:
            snapd("migrate", "OLD", "F", stdout=full).failed_with(1, "standard output: No space left on device")
        snapd("get", "F").gave(0, "hi")


def test_every_point_of_a_migration(snapd, random):
    """The writes and syncs on the new file are recorded, and the machine crashes at each point of them. What is left is
    unformatted, and then the migration can be run again; or it is the whole new file."""
    for values in ([(0, b""), (1, b"hi")], [(6, b"old" * 100), (5, b"older")], [(8, b"n" * 4_080)]):
        old = old_file(snapd, *values)
        data, (number, value) = old.read_bytes(), max(values)
        done, printed = NOW.holding((number, value)), f"migrated 0 of 1 number {number}\n"
        for before in (bytes(NOW.length), bytes([0x5A]) * NOW.length):
            snapd.file().write_bytes(before)
            run, calls = recorder.run(snapd, "migrate", "OLD", "F")
            run.gave(0, printed)
            assert [call if call == SYNC else (call.at, len(call.bytes)) for call in calls] == MIGRATION, calls
            seen = set()
            for left, is_done in outcomes(before, calls, random):
                snapd.file().write_bytes(left)
                head = NOW.header_of(left)
                seen.add(head)
                if head == "unformatted":
                    assert not is_done
                    snapd("get", "F").refused(11, "Unformatted", unformatted())
                    snapd("migrate", "OLD", "F").gave(0, printed)
                else:
                    snapd("migrate", "OLD", "F").refused(12, "AlreadyFormatted", AS_NEW)
                assert snapd.file().read_bytes() == done
                snapd("get", "F").gave(0, value)
                assert old.read_bytes() == data
            assert seen == {"unformatted", (0, 1)}


MIGRATION = [SYNC, (0, BLOCK - 1), (BLOCK, NOW.length - BLOCK), SYNC, (BLOCK - 1, 1), SYNC]


def test_crash_in_migration(snapd, _):
    """After the write that opens the header's gate, and before its sync."""
    old_file(snapd, (0, b""), (1, b"hi"))
    run, calls = recorder.run(snapd, "migrate", "OLD", "F")
    run.gave(0, "migrated 0 of 1 number 1\n")
    whole = bytearray(bytes(NOW.length))
    for call in calls:
        if isinstance(call, Write):
            whole[call.at : call.at + len(call.bytes)] = call.bytes
    for byte in (0x00, 0xA5):
        whole[layout.HEADER_GATE] = byte
        snapd.file().write_bytes(whole)
        if byte == 0x00:
            snapd("migrate", "OLD", "F").gave(0, "migrated 0 of 1 number 1\n")
        else:
            snapd("migrate", "OLD", "F").refused(12, "AlreadyFormatted", AS_NEW)
        snapd("check", "F").gave(0, NOW.findings(NOW.holding((1, b"hi"))))
        snapd("get", "F").gave(0, "hi")


def test_every_call_fails(snapd, _):
    """Each of the nine calls in turn fails, or takes no byte: refused 13. Then the new file is unformatted or whole."""
    old = old_file(snapd, (2, b"two"), (1, b"one"))
    data, done, printed = old.read_bytes(), NOW.holding((2, b"two")), "migrated 0 of 1 number 2\n"
    for name, number, which in (("OLD", 2, OF_OLD), ("F", 7, OF_NEW)):
        for call in range(1, number + 2):
            for kind in ("fail", "none", "short", "interrupt", "kill", "torn"):
                snapd.file().write_bytes(bytes(NOW.length))
                run, calls = recorder.run(snapd, "migrate", "OLD", "F", fault=f"{call} {kind}", file=name)
                if run.status == 0:
                    assert kind not in ("fail", "kill") or call > number
                    run.gave(0, printed)
                elif run.status == 3:
                    assert kind in ("fail", "none") and call <= number
                    reasons = FAULTS if kind == "fail" else CUT_SHORT
                    told = [which + advised(reason) for reason in reasons]
                    assert run.errors in [f"snapd: refused 13 DeviceFailed\nsnapd: {line}\n" for line in told], run
                else:
                    assert run.status == -9 and kind in ("kill", "torn"), run
                assert name == "F" or not any(isinstance(made, Write) for made in calls), calls
                left = snapd.file().read_bytes()
                if NOW.header_of(left) == "unformatted":
                    assert run.status != 0
                    snapd("migrate", "OLD", "F").gave(0, printed)
                assert snapd.file().read_bytes() == done
                assert old.read_bytes() == data


FAULTS = [f"{call}: Input/output error (os error 5)" for call in ("read", "write", "sync")]
# A call that moves no byte.
CUT_SHORT = ["read: failed to fill whole buffer", "write: failed to write whole buffer"]


def test_the_reason_of_a_failed_call_is_told(snapd, _):
    """Of each file, as the system says it."""
    disk = Disk(snapd)
    old_file(snapd, (2, b"two"), (1, b"one"))
    for why, text in REASONS.items():
        for name, of, calls in (("OLD", OF_OLD, ("read", "sync")), ("F", OF_NEW, ("read", "write", "sync"))):
            for call in calls:
                snapd.file().write_bytes(bytes(NOW.length))
                disk.says(f"{name} {call} fail {why}")
                run = snapd("migrate", "OLD", "F", env=disk.env)
                run.refused(13, "DeviceFailed", of + advised(f"{call}: {text}"))
                disk.says()
        snapd("migrate", "OLD", "F").gave(0, "migrated 0 of 1 number 2\n")
        snapd.file().unlink()


def test_killed_a_hundred_times(snapd, random):
    """A migration is killed at a random moment, again and again: each time it can be run again,
    or the new file is whole."""
    old = old_file(snapd, (6, b"six" * 1_000), (5, b"five"))
    data, done = old.read_bytes(), NOW.holding((6, b"six" * 1_000))
    began = time.monotonic()
    for _ in range(10):
        snapd.file().unlink(missing_ok=True)
        assert snapd("migrate", "OLD", "F").status == 0
    whole = (time.monotonic() - began) / 10
    for _ in range(100):
        snapd.file().unlink(missing_ok=True)
        run = subprocess.Popen([snapd.path, "migrate", "OLD", "F"], cwd=snapd.folder, stdout=subprocess.DEVNULL)
        moment(random, 1.2 * whole)
        run.send_signal(signal.SIGKILL)
        run.wait()
        left = snapd.file().read_bytes() if snapd.file().exists() else b""
        assert len(left) in (0, NOW.length), len(left)
        if left == b"" or NOW.header_of(left) == "unformatted":
            snapd("migrate", "OLD", "F").gave(0, "migrated 0 of 1 number 6\n")
        assert snapd.file().read_bytes() == done
        assert old.read_bytes() == data
