"""What the tests of the clients have in common: the client in C as a program, peers with a given behaviour, the vectors
of docs/FORMATS.md, and jobs that are killed."""

import asyncio
import contextlib
import functools
import os
import pathlib
import re
import socket
import struct
import subprocess
import sys
import tempfile
import threading

from waiting import PATIENCE

TOP = pathlib.Path(__file__).resolve().parent.parent
sys.path.insert(0, str(TOP / "clients" / "python"))
sys.path.insert(0, str(TOP / "tests" / "oracle"))

import server as oracle  # noqa: E402, F401
import snapd_client  # noqa: E402
from snapd_client import aio  # noqa: E402

STRICT = ["-std=c99", "-Wall", "-Wextra", "-Wpedantic", "-Wshadow", "-Wconversion", "-Werror", "-O2"]
ENVIRONMENT = {**os.environ, "PYTHONPATH": str(TOP / "clients" / "python"), "PYTHONDONTWRITEBYTECODE": "1"}

STORED_ONE = bytes.fromhex("00000009 81 0000000000000001")

# The client in Python, which waits as long as it takes where a test says nothing else.
Client = functools.partial(snapd_client.Client, timeout=PATIENCE)
AioClient = functools.partial(aio.Client, timeout=PATIENCE)


class Driven:
    """Something of the client of asyncio, each of whose calls is made to its end by a loop, so that a test means the
    same for both clients. What isn't awaited is as it is."""

    def __init__(self, driven, loop):
        vars(self).update(driven=driven, loop=loop)

    def finished(self, given):
        if asyncio.iscoroutine(given):
            return self.loop.run_until_complete(given)
        return Driven(given, self.loop) if isinstance(given, aio.Segment) else given

    def __getattr__(self, name):
        found = getattr(self.driven, name)
        if name.startswith("_") or not callable(found):
            return self.finished(found)
        return lambda *words, **named: self.finished(found(*words, **named))

    def __setattr__(self, name, value):
        setattr(self.driven, name, value)

    def __enter__(self):
        return self

    def __exit__(self, *_):
        self.close()


@functools.lru_cache(maxsize=None)
def _loop():
    """The loop of the process."""
    return asyncio.new_event_loop()


def driven_client(address, timeout=PATIENCE, **more):
    """The client of asyncio, by a loop that runs while it is in a call."""
    return Driven(aio.Client(address, timeout=timeout, **more), _loop())


BOTH = (Client, driven_client)


@contextlib.contextmanager
def replaced(place, name, value):
    """Replaces an attribute for the time of the `with`."""
    before = getattr(place, name)
    setattr(place, name, value)
    try:
        yield
    finally:
        setattr(place, name, before)


EXAMPLES = TOP / "clients" / "c" / "examples"


@functools.lru_cache(maxsize=None)
def compiled(name, folder=EXAMPLES, more=()):
    """The path of a program in C, as a rule of an example, compiled once with every warning an error."""
    path = pathlib.Path(_folder().name) / name
    source = folder / f"{name}.c"
    subprocess.run(["gcc", *STRICT, *more, "-I", TOP / "clients" / "c", "-o", path, source], check=True)
    return str(path)


@functools.lru_cache(maxsize=None)
def _folder():
    """Removed at the end of the process."""
    return tempfile.TemporaryDirectory(prefix="snapd-c-")


def host_and_port(address):
    """The arguments that give an address to the programs in C."""
    return [address, "0"] if address.startswith("unix:") else address.split(":")


def ask(address, *words, timeout=1000 * PATIENCE, tries=1):
    """Status, output and errors of one request by the client in C."""
    run = subprocess.run([compiled("ask"), *host_and_port(address), str(timeout), str(tries), *map(str, words)],
                         capture_output=True, text=True, timeout=2 * PATIENCE)
    return run.returncode, run.stdout, run.stderr


class Peer:
    """A peer that handles its connections one after another, each with the next of these functions; then it hangs up.

    `heard` has the bytes that each connection sent to it.
    """

    def __init__(self, *handlers):
        self.handlers = handlers
        self.heard = []
        self.listener = socket.create_server(("127.0.0.1", 0))
        self.address = "{}:{}".format(*self.listener.getsockname())

    @classmethod
    def each(cls, *handlers):
        """One for each of both clients in Python."""
        return [(make, cls(*handlers)) for make in BOTH]

    def __enter__(self):
        self.thread = threading.Thread(target=self.run, daemon=True)
        self.thread.start()
        return self

    def run(self):
        for handle in self.handlers:
            connection, _ = self.listener.accept()
            with connection:
                connection.settimeout(PATIENCE)
                self.heard.append(b"")
                handle(self, connection)
        self.listener.close()

    def __exit__(self, *_):
        self.thread.join(2 * PATIENCE)
        assert not self.thread.is_alive(), "the client made fewer connections than it should have"

    def hear(self, connection, count):
        """Reads `count` bytes."""
        while len(self.heard[-1]) < count:
            piece = connection.recv(count - len(self.heard[-1]))
            assert piece, self.heard
            self.heard[-1] += piece


def hangs_up(_, __):
    pass


def hangs_up_after(count):
    return lambda peer, connection: peer.hear(connection, count)


def says(answer, count=5, then=lambda _, connection: connection.recv(1)):
    """Reads a request of `count` bytes, and answers with these bytes. A client that closes before it has read them
    resets the connection."""
    def handle(peer, connection):
        peer.hear(connection, count)
        with contextlib.suppress(ConnectionError):
            connection.sendall(answer)
            then(peer, connection)
    return handle


def says_nothing(peer, connection):
    while connection.recv(4096):
        pass


class Deaf:
    """An address that takes no connection and refuses none: its queue is full, and what comes beyond it is dropped."""

    def __init__(self):
        self.listener = socket.socket()
        self.listener.bind(("127.0.0.1", 0))
        self.listener.listen(0)
        self.place, self.waiting = self.listener.getsockname(), []
        while not self.is_deaf():
            pass

    def is_deaf(self):
        caller = socket.socket()
        self.waiting.append(caller)
        caller.settimeout(0.2)
        try:
            caller.connect(self.place)
            return False
        except socket.timeout:
            return True

    def __enter__(self):
        return self

    def __exit__(self, *_):
        for it in (self.listener, *self.waiting):
            it.close()


async def cancelled(task):
    """Cancels a task, and waits until it has ended so."""
    task.cancel()
    try:
        await task
    except asyncio.CancelledError:
        return
    raise AssertionError("it wasn't cancelled")


def raised(call):
    """The exception that the call raises."""
    try:
        answer = call()
    except Exception as error:
        return error
    raise AssertionError(f"answered {answer!r}")


def refused(call, number, detail):
    error = raised(call)
    assert isinstance(error, snapd_client.Refused), repr(error)
    assert (error.number, error.detail) == (number, detail), error
    assert type(error).__name__ == error.name and error.name in str(error)


def framed(text):
    payload = bytes.fromhex(text)
    return struct.pack(">I", len(payload)) + payload


def part(segment, number, value=b""):
    """The frame of the reply to a scan of one segment."""
    return framed("8401%02x%016x%08x" % (segment, number, len(value)) + value.hex())


def vectors():
    """The requests and replies of docs/FORMATS.md, one connection to a server of two segments, as frames."""
    text = (TOP / "docs" / "FORMATS.md").read_text()
    table = text[text.index("| Request's frame | Reply's frame |"):].splitlines()[2:18]
    rows = []
    for line in table:
        request, reply = [cell.strip() for cell in line.strip("|").split("|")]
        found = re.search(r"`([0-9A-F. ]+)`", request)
        if found is None:
            assert (request, reply) == ("the same again", "the same reply"), line
            rows.append(rows[-1])
            continue
        frame = bytes.fromhex(found.group(1).replace("..", ""))
        if ".." in found.group(1):
            assert "segment 1, number 1, with 4,081 bytes" in request
            frame += (1).to_bytes(8, "big") + b"v" * 4081
        rows.append((frame, bytes.fromhex(re.search(r"`([0-9A-F ]+)`", reply).group(1))))
    assert len(rows) == 16
    return rows


def jobs(address):
    """The words of the examples' jobs, one in each language and on a segment of its own,
    without the number of steps."""
    example = TOP / "clients" / "python" / "examples" / "resuming_job.py"
    return [[sys.executable, str(example), address, "0"], [compiled("resuming_job"), *host_and_port(address), "1"]]


def begun(words, steps):
    """A job that does `steps` steps."""
    return subprocess.Popen(
        [*words, str(steps)], stdout=subprocess.PIPE, stderr=subprocess.DEVNULL, text=True, env=ENVIRONMENT
    )


def kill(job):
    """As `kill -9`, unless it has ended."""
    job.kill()
    job.communicate()


def ends_right(words, steps):
    """Runs a job to its end, which it comes to by itself, and wants its sum."""
    job = begun(words, steps)
    try:
        output, _ = job.communicate(timeout=10 * PATIENCE)
        wanted = f"{sum(step * step for step in range(1, steps + 1))}\n"
        assert (job.returncode, output) == (0, wanted), (job.returncode, output, wanted)
    finally:
        kill(job)
