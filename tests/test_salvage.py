"""`snapd check FILE --slot S --value`: the value in one slot, whatever the rest of the file holds,
and why there is none."""

import errno
import fcntl
import pathlib

import remedies
import segment_file as layout
from preload import library
from segment_file import BLOCK, body_at, gate_at
from test_commands import failed, of_length
from test_damage import WHOLE, changed
from test_folder import folder, name_of
from test_locks import IN_USE, locked
from test_memory import count_of
from test_serve_disks import Disk

OPEN_GATE = layout.gate(layout.OPEN)


def slot(snapd, number, file="F", **more):
    return snapd("check", file, "--slot", number, "--value", **more)


def has_none(run, number, why, file="F"):
    """The slot holds no value, for this reason."""
    run.gave(3, errors=f"snapd: {file}: slot {number} holds no value, bad {why}: try another slot\n")


def judged(data, number):
    """The contents of a slot's body, as the format reads it if the gate is open."""
    return layout.slot_of(changed(data, (gate_at(number), OPEN_GATE)), number)


def gives(snapd, data):
    """Each slot of a file gives what its body holds, and the file stays as it is, in its times too."""
    file = snapd.file()
    file.write_bytes(data)
    before = file.stat()
    for number in range(3):
        seen, run = judged(data, number), slot(snapd, number)
        if seen[0] == "open":
            run.gave(0, seen[2])
        else:
            has_none(run, number, seen[1])
    after = file.stat()
    assert file.read_bytes() == data
    assert (before.st_mtime_ns, before.st_ctime_ns) == (after.st_mtime_ns, after.st_ctime_ns)


def test_each_slot_is_printed(snapd, _):
    """Open or closed; and none where nothing was ever stored, save the empty value of slot 0."""
    snapd.formatted()
    slot(snapd, 0).gave(0, b"")
    has_none(slot(snapd, 1), 1, "number")
    has_none(slot(snapd, 2), 2, "number")
    for number in range(1, 6):
        snapd("put", "F", stdin=f"value {number}\n").gave(0, f"stored {number}\n")
    data = snapd.file().read_bytes()
    # The gate of 3 is closed by now, and its body is there still.
    assert layout.slot_of(data, 0) == ("closed",)
    for number in (3, 4, 5):
        slot(snapd, number % 3).gave(0, f"value {number}\n")
    snapd("check", "--value", "F", "--slot=1").gave(0, "value 4\n")
    gives(snapd, data)


def test_values_of_each_length(snapd, _):
    for value in (b"", b"\0", b"\n", bytes(range(256)), b"x" * 4_079, b"x" * 4_080, bytes(4_080)):
        for number in (3, 4, 5):
            gives(snapd, layout.holding((number, value)))
            slot(snapd, number % 3).gave(0, value)


def test_files_that_have_no_answer(snapd, _):
    """Whatever is wrong elsewhere: in a gate's block, a header, another slot, or that all three are open."""
    three = layout.holding((3, b"three"), (4, b"four"), (8, b"eight"))
    for data in (
        three,
        changed(three, (gate_at(1) + 9, b"\1")),
        changed(three, (gate_at(0), b"\xff" * BLOCK), (gate_at(1), b"\xff" * BLOCK), (gate_at(2), b"\xff" * BLOCK)),
        changed(three, (0, bytes(BLOCK))),
        changed(three, (0, b"\xff" * BLOCK)),
        changed(three, (body_at(0), b"\xff" * BLOCK)),
    ):
        gives(snapd, data)
        slot(snapd, 1).gave(0, b"four")
        assert snapd("check", "F").status == 3 and snapd("get", "F").status == 3


def test_slots_that_hold_no_value(snapd, _):
    """Each reason in each slot, open and closed, at the first and the last byte that it speaks of,
    and the first of several."""
    longest = (layout.MAX_VALUE + 1).to_bytes(4, "big")
    for number, value in ((3, b"three"), (4, b"four"), (5, b"fifth")):
        at, body = number % 3, body_at(number % 3)
        whole = layout.holding((3, b"three"), (4, b"four"), (5, b"fifth"))
        for why, places in {
            "length": [(body + 8, longest), (body + 8, b"\xff")],
            "zeros": [
                (body + 12, b"\1"), (body + 15, b"\1"), (body + 16 + len(value), b"\1"), (body + BLOCK - 1, b"\1"),
            ],
            "number": [(body, b"\x80"), (body + 7, bytes([number ^ 1])), (body, b"\xff" * 8)],
        }.items():
            for place in places:
                for gate in (OPEN_GATE, layout.gate(0)):
                    data = changed(whole, place, (gate_at(at), gate))
                    gives(snapd, data)
                    has_none(slot(snapd, at), at, why)
        bad = changed(whole, (body, b"\xff"), (body + 15, b"\1"))
        gives(snapd, bad)
        has_none(slot(snapd, at), at, "zeros")
        gives(snapd, changed(bad, (body + 8, b"\xff")))
        has_none(slot(snapd, at), at, "length")


def test_the_last_number(snapd, _):
    """Its value is printed, and a number after it is invalid."""
    last = 2**63 - 1
    gives(snapd, layout.holding((last, b"end")))
    slot(snapd, last % 3).gave(0, b"end")
    gives(snapd, layout.holding((last + 1, b"over")))
    has_none(slot(snapd, (last + 1) % 3), (last + 1) % 3, "number")


def test_random_files(snapd, random):
    for _ in range(60):
        places = []
        for _ in range(random.randrange(1, 5)):
            block = random.choice((body_at, gate_at))(random.randrange(3))
            byte = random.choice([0, 1, 4, 5, layout.OPEN, random.randrange(256)])
            places.append((block + random.choice((0, 7, 8, 9, 10, 11, 12, 15, 16, 20, BLOCK - 1)), bytes([byte])))
        gives(snapd, changed(WHOLE, *places))


def test_what_doctor_says_helps(snapd, _):
    place = folder(snapd, 2)
    data = layout.holding((3, b"three"), (4, b"four"), (5, b"five"), index=1, count=2)
    (place / name_of(1)).write_bytes(data)
    run = snapd("doctor", "D")
    told = f"or save what a slot holds by snapd check D/{name_of(1)} --slot S --value\n"
    assert run.status == 3 and told in run.output.decode(), run
    words = told.rpartition(" by snapd ")[2].split()
    snapd(*(it.replace("S", "2") if it == "S" else it for it in words)).gave(0, b"five")
    # And what was saved is stored again in a new file.
    (place / name_of(1)).unlink()
    snapd("format", f"D/{name_of(1)}", "--index", 1, "--count", 2).gave(0, "formatted 1 of 2\n")
    snapd("put", f"D/{name_of(1)}", "--index", 1, "--count", 2, stdin=b"five").gave(0, "stored 1\n")


def test_files_that_have_no_slots(snapd, _):
    """Refused as `check` refuses them."""
    for length in (0, 1, layout.OLD.length, layout.LENGTH - 1, layout.LENGTH + 1):
        snapd.file().write_bytes(b"\xa5" * length)
        more = layout.advice("F") if length == layout.OLD.length else of_length(length)
        if length == 0:
            more = "F: it has no byte: a format that was cut off: go on with snapd format F --index I --count N"
        for number in range(3):
            slot(snapd, number).refused(14, "WrongFile", more)
        assert snapd("check", "F") == slot(snapd, 0)
    slot(snapd, 0, "none").gave(1, errors=remedies.failed("none", remedies.MISSING, remedies.no_file("none")))
    snapd.file("folder").mkdir()
    slot(snapd, 0, "folder").gave(1, errors="snapd: folder: Is a directory (os error 21)\n")


def test_a_disk_that_fails(snapd, _):
    disk = Disk(snapd)
    snapd.file().write_bytes(WHOLE)
    disk.says(f"F read fail {errno.EIO}")
    run = slot(snapd, 1, env=disk.env)
    run.refused(13, "DeviceFailed", failed("read: Input/output error (os error 5)"))


def test_who_else_has_the_file(snapd, _):
    """It is shared with readers, and not with a writer."""
    file = snapd.file()
    file.write_bytes(WHOLE)
    with locked(file, fcntl.LOCK_SH):
        slot(snapd, 0).gave(0, b"three")
    with locked(file, fcntl.LOCK_EX):
        slot(snapd, 0).gave(1, errors=IN_USE)
    file.chmod(0o444)
    slot(snapd, 0).gave(0, b"three")


def test_output_that_fails(snapd, _):
    snapd.file().write_bytes(WHOLE)
    if pathlib.Path("/dev/full").exists():
        with open("/dev/full", "wb") as full:
            slot(snapd, 1, stdout=full).failed_with(1, "standard output: No space left on device")


def test_each_allocation_is_refused(snapd, _):
    """Refused as 8, or the same as with ample memory. A reason is printed although no memory is left for it."""
    snapd.file().write_bytes(WHOLE)
    for number in (1, 2):
        words = ("check", "F", "--slot", number, "--value")
        ample = snapd(*words)
        for refused in range(1, count_of(snapd, *words) + 1):
            run = snapd(*words, env={"LD_PRELOAD": library("allocations"), "ALLOCATIONS_REFUSE": str(refused)})
            if run != ample:
                run.refused(8, "NoMemory")
        assert snapd.file().read_bytes() == WHOLE


def test_words(snapd, _):
    snapd.file().write_bytes(WHOLE)
    for words in (
        ("--slot", 3, "--value"), ("--slot", 256, "--value"), ("--slot", "x", "--value"), ("--slot=-1", "--value"),
        ("--slot", 1), ("--value",), ("--slot", 1, "--value", "--json"), ("--slot", "", "--value"),
    ):
        snapd("check", "F", *words).failed_with(2)
    assert snapd.file().read_bytes() == WHOLE
