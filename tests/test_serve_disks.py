"""`snapd serve` on disks that fail, fill up, wait or are damaged: the segment is fenced, the others go on, scans show
what was acknowledged, and a restart recovers."""

import contextlib
import errno
import os
import socket
import subprocess

import remedies
import segment_file as layout
from preload import library
from program import Skipped
from serving import FRESH, SCAN, STATUS, Server, entries_of, received, refused, reply, segments, snapshot
from serving import standings, stored, update
from test_serve import remedy
from waiting import PATIENCE, comes_to

TWO = [(0, b""), (1, b"hi")]


class Disk:
    """What happens to the calls of servers that are started with `env`, while they run."""

    def __init__(self, snapd):
        self.path = snapd.file("control")
        self.held = snapd.file("control.held")
        self.env = {"LD_PRELOAD": library("disk_control"), "DISK_CONTROL": str(self.path)}
        self.says()

    def says(self, *lines):
        """From now on these lines and no others hold."""
        self.held.unlink(missing_ok=True)
        beside = self.path.with_suffix(".new")
        beside.write_text("".join(line + "\n" for line in lines))
        os.replace(beside, self.path)

    def wait_for_hold(self):
        """Until a call that is to be held has come."""
        comes_to(True, self.held.exists)


def test_a_failed_call_fences_its_segment_alone(snapd, _):
    """Each kind of call, with each error: refused 13 and then 6; all else as before, on this connection and others."""
    disk = Disk(snapd)
    for call in ("write", "sync"):
        for why in (errno.EIO, errno.ENOSPC, errno.EROFS, errno.EDQUOT):
            files = segments(snapd, TWO, TWO)
            with Server(snapd, *files, env=disk.env) as server, server.connect() as stream:
                disk.says(f"S0 {call} fail {why}")
                stream.sendall(update(0, 2, b"new") + update(0, 2, b"new") + SCAN + STATUS)
                wanted = (
                    refused(13, 1) + refused(6, 1) + snapshot((1, b"hi"), (1, b"hi")) + standings((1, True), (1, False))
                )
                assert received(stream, len(wanted)) == wanted, (call, why)
                disk.says()
                # The disk is sound again, and the segment stays fenced. What needs no disk is answered as before.
                server.ask(update(0, 2, b"new"), refused(6, 1))
                server.ask(
                    update(0, 1, b"hi") + update(0, 1, b"x") + update(0, 5), stored(1) + refused(4, 1) + refused(5, 1)
                )
                server.ask(update(1, 2, b"on") + SCAN, stored(2) + snapshot((1, b"hi"), (2, b"on")))
            with Server(snapd, *files) as server:
                assert server.scan()[0] in ((1, b"hi"), (2, b"new")) and server.scan()[1] == (2, b"on")
                server.ask(update(0, 2, b"new") + SCAN, stored(2) + snapshot((2, b"new"), (2, b"on")))


def test_a_torn_write(snapd, _):
    disk = Disk(snapd)
    files = segments(snapd, TWO, FRESH)
    longest = b"n" * layout.MAX_VALUE
    with Server(snapd, *files, env=disk.env) as server:
        disk.says(f"S0 write torn {errno.EIO}", f"S1 write torn {errno.ENOSPC}")
        server.ask(update(0, 2, longest) + update(1, 1, longest), refused(13, 1) + refused(13, 0))
        server.ask(STATUS + SCAN, standings((1, True), (0, True)) + snapshot((1, b"hi"), (0, b"")))
    with Server(snapd, *files) as server:
        server.ask(SCAN, snapshot((1, b"hi"), (0, b"")))
        server.ask(update(0, 2, longest) + update(1, 1, longest), stored(2) + stored(1))


def test_call_says_that_the_disk_failed(snapd, _):
    disk = Disk(snapd)
    with Server(snapd, *segments(snapd, TWO), env=disk.env) as server:
        disk.says(f"S0 sync fail {errno.EIO}")
        words = (server.address, "update", 0, 2, "00")
        snapd("call", *words).gave(3, errors="snapd: refused 13 DeviceFailed 1\n")
        snapd("call", *words).gave(3, errors="snapd: refused 6 Fenced 1\n")
        snapd("call", server.address, "status").gave(0, "segment 0 number 1 fenced 1\n")


def test_a_start_on_a_failing_disk(snapd, _):
    """Nothing is served, and the file is named; once the disk is sound the same words start it."""
    disk = Disk(snapd)
    files = segments(snapd, TWO, TWO, TWO)
    for call in ("sync", "read"):
        disk.says(f"S1 {call} fail {errno.EIO}")
        run = snapd("serve", "127.0.0.1:0", *files, env=disk.env)
        run.refused(13, "DeviceFailed", remedy("13", "S1", 1, 3, f"{call}: Input/output error (os error 5)"))
    disk.says()
    with Server(snapd, *files, env=disk.env) as server:
        assert server.scan() == [(1, b"hi")] * 3


# ---- a disk that waits ----

def test_no_outcome_is_missed_by_a_worker_that_falls_asleep(snapd, _):
    """A worker spins for less than a millisecond before it sleeps, and is woken only where it sleeps. Stores that take
    from less to more than that have their outcomes come while it does the one, the other, or passes from one to the
    other."""
    disk, number = Disk(snapd), 0
    with Server(snapd, *segments(snapd, FRESH), env=disk.env, scanners=1) as server, server.connect() as stream:
        for rest in range(0, 2000, 40):
            disk.says(f"S0 sync rest {rest}")
            for number in range(number + 1, number + 21):
                stream.sendall(update(0, number, b"v"))
                wanted = stored(number)
                assert received(stream, len(wanted)) == wanted, f"stores of twice {rest} us"


def test_a_scan_passes_a_held_update(snapd, _):
    """An update that waits for its disk blocks no scan, no other segment, and no connection of its own worker."""
    disk = Disk(snapd)
    for scanners in (1, 2):
        with Server(snapd, *segments(snapd, TWO, FRESH), env=disk.env, scanners=scanners) as server:
            disk.says("S0 sync hold 0")
            with server.connect() as slow, server.connect() as behind:
                slow.sendall(update(0, 2, b"slow") + SCAN)
                disk.wait_for_hold()
                behind.sendall(update(0, 3, b"behind"))
                for number in range(1, 51):
                    server.ask(update(1, number, b"x") + SCAN, stored(number) + snapshot((1, b"hi"), (number, b"x")))
                server.ask(STATUS, standings((1, False), (50, False)))
                for stream in (slow, behind):
                    stream.settimeout(0.05)
                    with contextlib.suppress(TimeoutError, socket.timeout):
                        raise AssertionError(f"answered before its store: {stream.recv(100).hex()}")
                    stream.settimeout(PATIENCE)
                disk.says()
                assert received(slow, 13) == stored(2)
                # The later one was judged once the first was stored.
                assert received(behind, 13) == stored(3)
                first, second = entries_of(reply(slow))
                assert first in ((2, b"slow"), (3, b"behind")) and second == (50, b"x")


def test_a_peer_that_leaves_its_held_update(snapd, _):
    """Its update is stored when the disk continues, and no other peer gets its outcome."""
    disk = Disk(snapd)
    with Server(snapd, *segments(snapd, TWO, FRESH), env=disk.env, scanners=1) as server:
        disk.says("S0 sync hold 0")
        stream = server.connect()
        stream.sendall(update(0, 2, b"left"))
        disk.wait_for_hold()
        stream.close()
        with server.connect() as other:
            for _ in range(20):
                other.sendall(SCAN)
                wanted = snapshot((1, b"hi"), (0, b""))
                assert received(other, len(wanted)) == wanted
            disk.says()
            server.ask(update(0, 2, b"left"), stored(2))
            other.sendall(SCAN)
            wanted = snapshot((2, b"left"), (0, b""))
            assert received(other, len(wanted)) == wanted


def test_a_worker_with_one_connection_stores_itself(snapd, _):
    """Meanwhile the other workers' connections are answered, and each one that arrives: the last worker takes those of
    the others."""
    disk = Disk(snapd)
    with Server(snapd, *segments(snapd, TWO, FRESH), env=disk.env, scanners=2) as server:
        with server.connect() as slow, server.connect() as other:
            told, last = (1, b"hi"), 0
            for number in (2, 3):
                # It is answered once its worker knows that nobody else is connected.
                slow.sendall(STATUS)
                wanted = standings((number - 1, False), (last, False))
                assert received(slow, len(wanted)) == wanted
                disk.says("S0 sync hold 0")
                slow.sendall(update(0, number, b"slow") + SCAN)
                disk.wait_for_hold()
                for last in range(last + 1, last + 21):
                    other.sendall(update(1, last, b"x") + SCAN)
                    wanted = stored(last) + snapshot(told, (last, b"x"))
                    assert received(other, len(wanted)) == wanted
                    server.ask(SCAN, snapshot(told, (last, b"x")))
                disk.says()
                told = (number, b"slow")
                wanted = stored(number) + snapshot(told, (last, b"x"))
                assert received(slow, len(wanted)) == wanted
                server.ask(STATUS, standings((number, False), (last, False)))


def test_a_kill_while_a_store_is_held(snapd, _):
    """Before its gate was opened: the update isn't there, and the same again stores it."""
    disk = Disk(snapd)
    files = segments(snapd, TWO)
    for number, call in enumerate(("sync", "write") * 3, start=2):
        with Server(snapd, *files, env=disk.env) as server, server.connect() as stream:
            disk.says(f"S0 {call} hold 0")
            stream.sendall(update(0, number, b"%d" % number))
            disk.wait_for_hold()
        disk.says()
        with Server(snapd, *files) as server:
            assert server.scan()[0][0] == number - 1
            server.ask(update(0, number, b"%d" % number), stored(number))


# ---- file systems ----

@contextlib.contextmanager
def file_system(snapd, options):
    """A small file system in memory."""
    place = snapd.file("small")
    place.mkdir()
    mounted = subprocess.run(["mount", "-t", "tmpfs", "-o", options, "tmpfs", place], capture_output=True, text=True)
    if mounted.returncode != 0:
        raise Skipped(f"no file system can be mounted here: {mounted.stderr.strip()}")
    try:
        yield place
    finally:
        subprocess.run(["umount", "-l", place], check=True)


def with_holes(path):
    """The same file without room on the disk for its zero blocks, as some programs copy files."""
    data = path.read_bytes()
    path.unlink()
    with open(path, "wb") as file:
        file.truncate(len(data))
        for at in range(0, len(data), layout.BLOCK):
            if any(data[at : at + layout.BLOCK]):
                file.seek(at)
                file.write(data[at : at + layout.BLOCK])


def test_the_disk_is_full(snapd, _):
    """A file that has its room needs no more. One with holes is fenced at the first that has to be filled."""
    with file_system(snapd, "size=256k") as place:
        files = segments(snapd, TWO, TWO, folder="small")
        with_holes(place / "S0")
        with open(place / "filler", "wb", buffering=0) as filler, contextlib.suppress(OSError):
            while True:
                filler.write(bytes(1_024))
        with Server(snapd, *files) as server:
            for number in range(2, 20):
                server.ask(update(1, number, b"on"), stored(number))
            server.ask(update(0, 2, b"new") + update(0, 2, b"new"), refused(13, 1) + refused(6, 1))
            server.ask(update(1, 20, b"on") + SCAN, stored(20) + snapshot((1, b"hi"), (20, b"on")))
        (place / "filler").unlink()
        with Server(snapd, *files) as server:
            server.ask(update(0, 2, b"new") + SCAN, stored(2) + snapshot((2, b"new"), (20, b"on")))


def test_the_file_system_is_read_only(snapd, _):
    with file_system(snapd, "size=256k") as place:
        files = segments(snapd, TWO, TWO, folder="small")
        subprocess.run(["mount", "-o", "remount,ro", place], check=True)
        snapd("serve", "127.0.0.1:0", *files).gave(
            1, errors=remedies.failed("small/S0", remedies.READ_ONLY, remedies.read_only("small/S0"))
        )
        # Commands that only read still work.
        snapd("get", "small/S0", "--index", 0, "--count", 2).gave(0, "hi")
        assert snapd("check", "small/S0").status == 0
        subprocess.run(["mount", "-o", "remount,rw", place], check=True)
        with Server(snapd, *files) as server:
            server.ask(update(0, 2), stored(2))


# ---- damage from outside ----

def written_into(file, at, data):
    """Writes into a file that is served, as no program should that asks for no lock."""
    with open(file, "r+b", buffering=0) as there:
        there.seek(at)
        there.write(data)


def test_a_file_is_damaged_while_it_serves(snapd, _):
    """It serves on what it knows. A restart refuses the file by name and leaves the others alone."""
    damages = [
        (layout.gate_at(0) + 7, b"\1", 3, 10, "Damaged", "10"),
        (layout.HEADER_GATE, b"\0", 3, 11, "Unformatted", "11"),
        (9, b"\7", 0, 14, "WrongFile", "14, any other file"),
    ]
    for at, data, checked, number, name, refusal in damages:
        files = segments(snapd, TWO, FRESH)
        with Server(snapd, *files) as server:
            written_into(snapd.file("S0"), at, data)
            server.ask(SCAN + update(1, 1, b"on"), snapshot((1, b"hi"), (0, b"")) + stored(1))
            server.ask(update(0, 1, b"hi"), stored(1))
        before = snapd.file("S0").read_bytes()
        snapd("serve", "127.0.0.1:0", *files).refused(number, name, remedy(refusal, "S0", 0, 2))
        assert snapd.file("S0").read_bytes() == before
        assert snapd("check", "S0").status == checked
        # With a file from a backup in its place all is served again.
        snapd.file("S0").write_bytes(layout.holding(*TWO, index=0, count=2))
        with Server(snapd, *files) as server:
            assert server.scan() == [(1, b"hi"), (1, b"on")]


def test_a_file_is_gone_while_it_serves(snapd, _):
    for how in ("removed", "cut"):
        files = segments(snapd, TWO, FRESH)
        with Server(snapd, *files) as server:
            if how == "removed":
                snapd.file("S0").unlink()
            else:
                os.truncate(snapd.file("S0"), 0)
            server.ask(SCAN + update(1, 1, b"on"), snapshot((1, b"hi"), (0, b"")) + stored(1))
        run = snapd("serve", "127.0.0.1:0", *files)
        if how == "removed":
            run.gave(1, errors=remedies.failed("S0", remedies.MISSING, remedies.no_file("S0")))
        else:
            run.refused(14, "WrongFile", remedy("14, no byte", "S0", 0, 2))
        segments(snapd, FRESH, [(1, b"on")])
        with Server(snapd, *files) as server:
            assert server.scan() == [(0, b""), (1, b"on")]
