"""The system calls of a run, seen by `strace`: on the file only those that the format names, in their order."""

import re
import shutil
import subprocess

import segment_file as layout
from program import Skipped

CALL = re.compile(r"^(\d+ +)?(\w+)\((.*)\) += (-?\d+)")


def calls_of(snapd, *words, stdin=b"", file="F", folder="."):
    """The calls on a file, its folder and the file `OLD` in order, as (name, offset and length), and those on the
    standard streams."""
    if shutil.which("strace") is None:
        raise Skipped("strace isn't installed")
    log = snapd.file("strace.log")
    traced = subprocess.run(
        ["strace", "-o", log, snapd.path, *words], cwd=snapd.folder, input=stdin, capture_output=True
    )
    if not log.exists() or "exited with" not in log.read_text():
        raise Skipped(f"strace can't trace here: {traced.stderr.decode().strip()}")
    names = {file: "", folder: " of the folder", "OLD": " of the old file"}
    named = "|".join(map(re.escape, names))
    opened, on_file, on_streams = {}, [], []
    for line in log.read_text().splitlines():
        call = CALL.match(line)
        if call is None:
            continue
        name, words_of_call, result = call[2], call[3], int(call[4])
        path = re.search(rf'"({named})"', words_of_call) if name in ("open", "openat") else None
        if path is not None:
            opened[str(result)] = names[path[1]]
            on_file.append(("open" + opened[str(result)],))
            continue
        number = words_of_call.split(",")[0]
        path = re.search(rf'AT_FDCWD, "({named})"', words_of_call) if name == "statx" else None
        if path is not None:
            on_file.append(("look at the name" + names[path[1]],))
        elif number in opened:
            numbers = (
                [int(word) for word in re.findall(r", (\d+)(?=,|$)", words_of_call)] if name.startswith("p") else []
            )
            on_file.append((name + opened[number], *numbers[-2:][::-1]))
            if name == "close":
                del opened[number]
        elif number in ("0", "1", "2") and name in ("read", "write", "lseek", "ioctl", "readv", "writev"):
            on_streams.append((name, int(number), result))
    return on_file, on_streams


# First whether it is a regular file, or a folder, which can't be opened so.
OPENED = [("look at the name",), ("open",), ("flock",), ("statx",)]
# Commands that only read check that once more, since a pipe would block them.
READ = [("look at the name",), *OPENED]
# A sync, and then whether the path still names the file; and the next one, which doesn't ask again.
LOOK = ("look at the name of the folder",)
SYNCED = [("fdatasync",), LOOK, ("look at the name",)]
SYNCED_ALONE = [("fdatasync",)]
NAMED = [("open of the folder",), ("fsync of the folder",), ("close of the folder",)]
RECOVERED = [*SYNCED, ("pread64", 0, 28_672)]
# Before the first write of a process: whether the file has the length, the header and the heads of slots that it read.
PARTS = ((0, 4_096), *((layout.gate_at(slot), 4_112) for slot in range(3)))
COMPARED = [("lseek",), *(("pread64", at, count) for at, count in PARTS)]
# Of a file that is taken for a new segment: whether it is formatted, and the calls that format it.
LOOKED_AT = [*SYNCED, ("pread64", 0, 4_096)]
FILLED = [("pwrite64", 0, 4_095), ("pwrite64", 4_096, 24_576), *SYNCED_ALONE, ("pwrite64", 4_095, 1), *SYNCED]


def store_calls(number):
    """Two syncs, whatever the number: the gate of the number before the last one is closed with the body's."""
    slot, spare = number % 3, (number + 1) % 3
    closing = [("pwrite64", layout.gate_at(spare), 1)] if number > 1 else []
    writing = [("pwrite64", layout.body_at(slot), 4_096), *SYNCED_ALONE]
    return COMPARED + closing + writing + [("pwrite64", layout.gate_at(slot), 1), *SYNCED]


def test_calls_of_each_command(snapd, _):
    on_file, on_streams = calls_of(snapd, "format", "F")
    # The name lasts before the file has bytes, and the lock comes before the length.
    assert on_file == OPENED + NAMED + [("ftruncate",)] + LOOKED_AT + FILLED + [("close",)], on_file
    assert on_streams == [("write", 1, len("formatted 0 of 1\n"))], on_streams

    for number in (1, 2, 3, 4):
        on_file, on_streams = calls_of(snapd, "put", "F", stdin=b"hi")
        assert on_file == OPENED + RECOVERED + store_calls(number) + [("close",)], on_file
        assert len(store_calls(number)) == (11 if number == 1 else 12)
        assert on_streams == [("read", 0, 2), ("read", 0, 0), ("write", 1, len("stored 1\n"))], on_streams

    on_file, on_streams = calls_of(snapd, "get", "F")
    assert on_file == READ + RECOVERED + [("close",)], on_file
    assert on_streams == [("write", 1, 2)], on_streams

    on_file, on_streams = calls_of(snapd, "check", "F")
    assert on_file == READ + [("pread64", 0, 28_672), ("close",)], on_file
    assert [call[:2] for call in on_streams] == [("write", 1)], on_streams


def of_old(*names):
    return [(f"{name} of the old file",) for name in names]


def test_calls_of_a_migration(snapd, _):
    """Two on the old file, none of which writes, and seven on the new one."""
    snapd.file("OLD").write_bytes(layout.OLD.holding((0, b""), (1, b"hi")))
    on_file, on_streams = calls_of(snapd, "migrate", "OLD", "F")
    opened = of_old(*["look at the name"] * 2, "open", "flock", "statx") + OPENED
    taken = opened + NAMED + [("ftruncate",)]
    read = [*of_old("fdatasync"), LOOK, *of_old("look at the name"), ("pread64 of the old file", 0, 20_480)]
    ends = on_file[-2:]
    assert on_file[:-2] == taken + read + LOOKED_AT + FILLED, on_file
    assert sorted(ends) == [("close",), *of_old("close")], on_file
    assert on_streams == [("write", 1, len("migrated 0 of 1 number 1\n"))], on_streams
    # Where the new file is formatted already, nothing is written, and where a length is wrong, nothing is looked at.
    on_file, _ = calls_of(snapd, "migrate", "OLD", "F")
    assert on_file[:-2] == opened + read + LOOKED_AT, on_file
    snapd.file("new").write_bytes(bytes(layout.LENGTH))
    on_file, _ = calls_of(snapd, "migrate", "F", "new")
    assert on_file == READ + [("close",)], on_file


WHOLE = ("pread64", 0, 28_672)


def test_calls_of_an_init(snapd, _):
    """It checks all files for a loss, and then each before it makes it, keeps it or refuses it."""
    snapd("init", "D").gave(0, "formatted 0 of 1\n")
    file = snapd.file("D/segment-00.seg")
    whole = layout.holding((0, b""), (1, b"hi"))
    bare, strange = bytearray(whole), bytearray(whole)
    bare[layout.HEADER_GATE], strange[11] = 0, 1
    for data, status, calls in (
        (bytes(layout.LENGTH), 0, LOOKED_AT + COMPARED + FILLED),
        (layout.holding((0, b"")), 0, RECOVERED),
        (whole, 0, RECOVERED),
        (bytes(strange), 3, RECOVERED),
        (bytes(bare), 3, []),
    ):
        file.write_bytes(data)
        on_file, on_streams = calls_of(snapd, "init", "D", file="D/segment-00.seg", folder="D")
        assert on_file == [*READ, WHOLE, ("close",), *OPENED, WHOLE, *calls, ("close",)], on_file
        assert {call[:2] for call in on_streams} == {("write", 2 if status else 1)}, on_streams
    for length in (layout.LENGTH - 1, layout.OLD.length):
        file.write_bytes(bytes(length))
        on_file, _ = calls_of(snapd, "init", "D", file="D/segment-00.seg", folder="D")
        assert ("pwrite64" not in {call[0] for call in on_file}) and on_file[-5:] == [*OPENED, ("close",)], on_file


def test_refused_calls_make_none(snapd, _):
    """Too long a value is refused before the file is looked at, and a refused file isn't written."""
    snapd.formatted()
    on_file, on_streams = calls_of(snapd, "put", "F", stdin=b"v" * 9_000)
    assert on_file == OPENED + [("close",)], on_file
    assert on_streams[0] == ("read", 0, 4_081), on_streams
    assert [call[:2] for call in on_streams[1:]] == [("write", 2), ("write", 2)], on_streams
    on_file, _ = calls_of(snapd, "format", "F")
    assert on_file == OPENED + LOOKED_AT + [("close",)], on_file
    for data in (b"x", bytes(layout.LENGTH - 1), bytes(layout.OLD.length), b""):
        for command in ("format", "put", "get", "check"):
            # A format of an empty file continues.
            if data or command != "format":
                snapd.file().write_bytes(data)
                on_file, _ = calls_of(snapd, command, "F", stdin=b"hi")
                assert (
                    on_file == (OPENED if command in ("format", "put") else READ) + [("close",)]
                ), (command, len(data), on_file)
