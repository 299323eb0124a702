"""A `snapd serve` on real files: started, asked, stopped and killed.
Frames and messages are as docs/FORMATS.md has them."""

import contextlib
import os
import pathlib
import re
import select
import socket
import struct
import subprocess
import time

import segment_file as layout
from program import Run
from waiting import PATIENCE, comes_to  # noqa: F401

LOOPBACK = "127.0.0.1:0"
# A line of the log: when, how much it matters, of what, and what.
LOG_LINE = re.compile(r"\d{4}-\d\d-\d\dT\d\d:\d\d:\d\d\.\d{3}Z (ERROR|WARN|INFO|DEBUG) (\w+): (.*)")


def free_port():
    """A free port below those that the system gives to connections."""
    for port in range(15_000 + os.getpid() * 37 % 10_000, 32_000):
        with contextlib.suppress(OSError), socket.create_server(("127.0.0.1", port)):
            return port
    raise OSError("no port is free")


# ---- messages ----

def frame(payload):
    return struct.pack(">I", len(payload)) + payload


def update(segment, number, value=b""):
    return frame(bytes([1, segment]) + number.to_bytes(8, "big") + value)


def stored(number):
    return frame(b"\x81" + number.to_bytes(8, "big"))


def refused(number, detail=0):
    return frame(bytes([0xE0, number]) + detail.to_bytes(8, "big"))


SCAN, STATUS = frame(b"\x02"), frame(b"\x03")
MALFORMED, TOO_LARGE = refused(1), refused(15, 66_000)
# The beginning of a frame whose length is above the limit.
OVER_THE_LIMIT = struct.pack(">I", 66_001)


def entries_of(payload):
    """The pairs of number and value of a snapshot."""
    assert payload[0] == 0x82, payload[:20]
    entries, at = [], 2
    for _ in range(payload[1]):
        number, length = struct.unpack_from(">QI", payload, at)
        entries.append((number, payload[at + 12 : at + 12 + length]))
        at += 12 + length
    assert at == len(payload)
    return entries


def snapshot(*entries):
    """The frame of a snapshot."""
    parts = (struct.pack(">QI", number, len(value)) + value for number, value in entries)
    return frame(bytes([0x82, len(entries)]) + b"".join(parts))


def standings(*pairs):
    """The frame of the reply to a status: pairs of number and fence."""
    return frame(bytes([0x83, len(pairs)]) + b"".join(struct.pack(">QB", *pair) for pair in pairs))


# ---- streams ----

def received(stream, count):
    """Receives `count` bytes, or fewer if the stream ends before."""
    got = b""
    while len(got) < count:
        piece = stream.recv(count - len(got))
        if not piece:
            break
        got += piece
    return got


def to_its_end(stream):
    got = []
    while piece := stream.recv(65_536):
        got.append(piece)
    return b"".join(got)


def reply(stream):
    """The payload of the next frame."""
    return received(stream, int.from_bytes(received(stream, 4), "big"))


def reset(stream):
    """Closes it by a reset."""
    stream.setsockopt(socket.SOL_SOCKET, socket.SO_LINGER, struct.pack("ii", 1, 0))
    stream.close()


# ---- servers ----

def limited(descriptors, words):
    """The words of a command with this limit of open files."""
    return ["sh", "-c", 'ulimit -n "$0" && exec "$@"', str(descriptors), *words]


def open_files(process):
    """What a process has open, as the system names it."""
    names = []
    for number in os.listdir(f"/proc/{process}/fd"):
        with contextlib.suppress(FileNotFoundError):
            names.append(os.readlink(f"/proc/{process}/fd/{number}"))
    return names


def segments(snapd, *held, folder="."):
    """Formatted files S0, S1 and so on of one server, each with these pairs of number and value."""
    names = [f"{folder}/S{index}" if folder != "." else f"S{index}" for index in range(len(held))]
    for index, (name, values) in enumerate(zip(names, held)):
        snapd.file(name).write_bytes(layout.holding(*values, index=index, count=len(held)))
    return names


FRESH = [(0, b"")]


def fresh(snapd, count, **more):
    """`count` files that were just formatted."""
    return segments(snapd, *[FRESH] * count, **more)


class Server:
    """A server that listens. It is killed at the end of a `with`.

    `report` is what it printed before the line of its address. What it writes on standard error goes to a file.
    """

    def __init__(self, snapd, *files, address=LOOPBACK, scanners=None, connections=None, env=None, descriptors=None,
                 more=(), before=()):
        words = [*before, snapd.path, "serve", address, *map(str, files)]
        words += [] if scanners is None else ["--scanners", str(scanners)]
        words += [] if connections is None else ["--connections", str(connections)]
        words += map(str, more)
        words = words if descriptors is None else limited(descriptors, words)
        self.errors = snapd.file(f"errors-{time.monotonic_ns()}")
        with open(self.errors, "wb") as errors:
            self.process = subprocess.Popen(
                words, cwd=snapd.folder, stdin=subprocess.DEVNULL, stdout=subprocess.PIPE, stderr=errors,
                env={**os.environ, **(env or {})},
            )
        try:
            self.report, self.address = self._printed()
        except BaseException:
            self.kill()
            raise
        self.place = self._place()

    def _place(self):
        host, _, port = self.address.rpartition(":")
        return host.strip("[]"), int(port)

    def _printed(self):
        """The report and the address, as soon as they have come. What came with them is kept for `end`."""
        text, until = b"", time.monotonic() + PATIENCE
        while b"\n" not in text.partition(b"listening ")[2]:
            ready, _, _ = select.select([self.process.stdout], [], [], until - time.monotonic())
            assert ready, f"no line `listening` came: {text!r}"
            piece = os.read(self.process.stdout.fileno(), 65_536)
            assert piece, f"it ended with {self.process.wait()}: {text!r}, {self.notes()}"
            text += piece
        report, _, behind = text.partition(b"listening ")
        address, _, self.printed_behind = behind.partition(b"\n")
        return report.decode(), address.decode()

    def __enter__(self):
        return self

    def __exit__(self, *_):
        self.kill()

    def kill(self):
        """As `kill -9`. It has ended, and its locks with it, when this returns."""
        self.process.kill()
        self.process.wait()
        self.process.stdout.close()

    def notes(self):
        """The lines on standard error so far."""
        return self.errors.read_text().splitlines()

    def logged(self, level=None, target=None):
        """The texts of the lines of its log so far, of this level and target."""
        found = map(LOG_LINE.fullmatch, self.notes())
        return [it[3] for it in found if it and level in (None, it[1]) and target in (None, it[2])]

    def end(self):
        """Waits until it ends: its status, what it printed after its address, and its errors."""
        output, _ = self.process.communicate(timeout=PATIENCE)
        return Run(self.process.returncode, self.printed_behind + output, self.errors.read_text())

    def connect(self, timeout=PATIENCE):
        stream = socket.create_connection(self.place, timeout=timeout)
        stream.setsockopt(socket.IPPROTO_TCP, socket.TCP_NODELAY, 1)
        return stream

    def ask(self, request, wanted):
        """Asks on a connection of its own, and wants this reply's frame, or these replies' frames."""
        with self.connect() as stream:
            stream.sendall(request)
            got = received(stream, len(wanted))
            assert got == wanted, f"\n  wanted {wanted[:200].hex()}\n  got    {got[:200].hex()}"

    def scan(self):
        """The pairs of number and value of a scan on a connection of its own."""
        with self.connect() as stream:
            stream.sendall(SCAN)
            return entries_of(reply(stream))

    def connections(self):
        """How many connections it has: of its sockets one listens."""
        return sum(it.startswith("socket:") for it in open_files(self.process.pid)) - 1

    def polled(self):
        """How many connections each thread polls, the most first: a worker beside its waker, and the main thread none
        beside its listener."""
        counts = []
        for place in pathlib.Path(f"/proc/{self.process.pid}/fdinfo").iterdir():
            with contextlib.suppress(FileNotFoundError):
                counts.append(place.read_text().count("tfd:"))
        return sorted((it - 1 for it in counts if it), reverse=True)

    def descriptors(self):
        """How many descriptors it has, without those by which it reads of itself for a moment."""
        return sum(not it.startswith("/proc/") for it in open_files(self.process.pid))

    def sockets_of(self, stream):
        """The system's report on both ends of this connection, the server's first: the fields of a line each."""
        here, there = self.place[1], stream.getsockname()[1]
        lines = pathlib.Path(f"/proc/{self.process.pid}/net/tcp").read_text().splitlines()[1:]
        told = {tuple(int(end.split(":")[1], 16) for end in line.split()[1:3]): line.split() for line in lines}
        return [told.get(ends) for ends in ((here, there), (there, here))]

    def has_read(self, stream):
        """Whether it has taken all that this peer has sent: nothing of it is on its way,
        and nothing waits to be read."""
        own, peer = self.sockets_of(stream)
        return peer[4].startswith("00000000:") and own[4].endswith(":00000000")

    def memory(self):
        """Resident, in kB."""
        status = pathlib.Path(f"/proc/{self.process.pid}/status").read_text()
        return int(status.split("VmRSS:")[1].split()[0])


def at_socket(path, timeout=PATIENCE):
    """A connection to the Unix socket at this path."""
    stream = socket.socket(socket.AF_UNIX)
    # A full queue is waited for, as the system does for a socket that waits.
    stream.setsockopt(socket.SOL_SOCKET, socket.SO_SNDTIMEO, struct.pack("ll", timeout, 0))
    try:
        stream.connect(str(path))
    except BaseException:
        stream.close()
        raise
    stream.settimeout(timeout)
    return stream


class AtSocket(Server):
    """A server whose first address is a Unix socket in its folder."""

    def _place(self):
        return str(self.errors.parent / self.address.removeprefix("unix:"))

    @property
    def path(self):
        return self.place

    def connect(self, timeout=PATIENCE):
        return at_socket(self.place, timeout)

    def printed(self, count):
        """The lines after that of the first address, once there are `count`."""
        while self.printed_behind.count(b"\n") < count:
            piece = os.read(self.process.stdout.fileno(), 65_536)
            assert piece, self.printed_behind
            self.printed_behind += piece
        return self.printed_behind.decode().splitlines()
