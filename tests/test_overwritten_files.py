"""Files that are overwritten or cut in place under `snapd serve`: no store overwrites what another program wrote."""

import errno
import os
import subprocess

import segment_file as layout
from serving import SCAN, STATUS, Server, refused, segments, snapshot, standings, stored, update
from test_log import lost
from test_serve_disks import Disk
from waiting import comes_to

TWO = [(0, b""), (1, b"hi")]
# The file of the test at its start, and what its server has acknowledged when it is overwritten.
FIRST, LAST = [(6, b"six"), (7, b"seven")], (8, b"eight")
WHY = (
    "write: another program wrote it or cut it, and it is left so: never copy onto a file in use: "
    "snapd load makes a new folder of a dump"
)


def copied(snapd, *values, **more):
    """Copies a file with these values onto that of segment 0 of 2, as an operator would."""
    backup = snapd.file("backup")
    backup.write_bytes(layout.holding(*values, **{"index": 0, "count": 2, **more}))
    subprocess.run(["cp", backup, snapd.file("S0")], check=True)


def byte_changed(snapd, at):
    with open(snapd.file("S0"), "r+b", buffering=0) as file:
        file.seek(at)
        byte = file.read(1)[0]
        file.seek(at)
        file.write(bytes([byte ^ 1]))


# How the file of segment 0 is overwritten, and what a restart shows of it: its number and value, or a refusal.
WAYS = {
    # A number that is three less lies in the same slot, with the same gates.
    "an older backup": (lambda snapd: copied(snapd, (4, b"four"), (5, b"five")), (5, b"five")),
    "the last backup": (lambda snapd: copied(snapd, (6, b"six"), (7, b"seven")), (7, b"seven")),
    "a fresh file": (lambda snapd: copied(snapd, (0, b"")), (0, b"")),
    "a newer one": (lambda snapd: copied(snapd, LAST, (9, b"nine")), (9, b"nine")),
    "another segment's": (lambda snapd: copied(snapd, (7, b"seven"), LAST, index=1), "14 WrongFile"),
    "another count's": (lambda snapd: copied(snapd, (7, b"seven"), LAST, count=3), "14 WrongFile"),
    "emptied": (lambda snapd: os.truncate(snapd.file("S0"), 0), "14 WrongFile"),
    "cut": (lambda snapd: os.truncate(snapd.file("S0"), layout.LENGTH - 1), "14 WrongFile"),
    "made longer": (lambda snapd: os.truncate(snapd.file("S0"), layout.LENGTH + 1), "14 WrongFile"),
    "zeros": (lambda snapd: snapd.file("S0").write_bytes(bytes(layout.LENGTH)), "11 Unformatted"),
    "its first byte": (lambda snapd: byte_changed(snapd, 0), "14 WrongFile"),
    "its header's gate": (lambda snapd: byte_changed(snapd, layout.HEADER_GATE), "11 Unformatted"),
    "a closed gate": (lambda snapd: byte_changed(snapd, layout.gate_at(2)), (7, b"seven")),
    "a number": (lambda snapd: byte_changed(snapd, layout.body_at(2) + 1), "10 Damaged"),
}


def test_a_file_that_is_overwritten_takes_no_update(snapd, _):
    """The next update is refused before a byte of it is written, the other segments are served, and a restart shows
    what was copied there."""
    for how, (overwrite, shown) in WAYS.items():
        files = segments(snapd, FIRST, TWO)
        with Server(snapd, *files) as server:
            server.ask(update(0, *LAST), stored(8))
            overwrite(snapd)
            there = snapd.file("S0").read_bytes()
            server.ask(update(0, 9, b"lost") + update(0, 9, b"lost"), refused(13, 8) + refused(6, 8))
            server.ask(SCAN + STATUS, snapshot(LAST, (1, b"hi")) + standings((8, True), (1, False)))
            server.ask(update(1, 2, b"on") + update(1, 3, b"on"), stored(2) + stored(3))
            comes_to([lost("S0", 0, 9, WHY)], lambda: server.logged("ERROR", "store"))
            assert snapd.file("S0").read_bytes() == there, how
        if isinstance(shown, str):
            run = snapd("serve", "127.0.0.1:0", *files)
            assert run.status == 3 and run.errors.startswith(f"snapd: refused {shown}\nsnapd: S0: "), (how, run)
        else:
            with Server(snapd, *files) as server:
                assert server.scan() == [shown, (3, b"on")], how
                server.ask(update(0, shown[0] + 1, b"on"), stored(shown[0] + 1))


def test_each_store_looks(snapd, _):
    """The first after a start, and each one after it."""
    for count in range(5):
        with Server(snapd, *segments(snapd, TWO)) as server:
            for number in range(2, 2 + count):
                server.ask(update(0, number, b"on"), stored(number))
            byte_changed(snapd, layout.gate_at((1 + count) % 3))
            server.ask(update(0, 2 + count, b"lost"), refused(13, 1 + count))


def test_what_is_still_there_is_not_overwritten(snapd, _):
    """Its own bytes copied onto it, another time or mode, and a reader don't matter. Nor does another value of the same
    number: the next one is stored beside it, and is there after a restart."""
    files = segments(snapd, TWO)
    path, aside = snapd.file("S0"), snapd.file("aside")
    with Server(snapd, *files) as server:
        for number in range(2, 20):
            server.ask(update(0, number, b"on"), stored(number))
            aside.write_bytes(path.read_bytes())
            subprocess.run(["cp", aside, path], check=True)
            os.utime(path, (number, number))
            path.chmod(0o600 + number % 2 * 0o040)
        for slot in range(3):
            byte_changed(snapd, layout.body_at(slot) + 16)
        server.ask(update(0, 20, b"on"), stored(20))
    with Server(snapd, *files) as server:
        assert server.scan() == [(20, b"on")]


def test_a_file_that_cannot_be_looked_at_takes_no_update(snapd, _):
    disk = Disk(snapd)
    files = segments(snapd, TWO, TWO)
    with Server(snapd, *files, env=disk.env) as server:
        before = snapd.file("S0").read_bytes()
        disk.says(f"S0 read fail {errno.EIO}")
        server.ask(update(0, 2, b"lost") + update(1, 2, b"on"), refused(13, 1) + stored(2))
        comes_to([lost("S0", 0, 2, "read: Input/output error (os error 5)")], lambda: server.logged("ERROR", "store"))
        assert snapd.file("S0").read_bytes() == before
