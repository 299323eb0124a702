"""`snapd serve` where calls of the system on its sockets fail, each in turn: the connection of that call may be closed,
the others are served, and nothing that was acknowledged is lost."""

import errno
import itertools

from preload import library
from serving import FRESH, LOOPBACK, SCAN, STATUS, Server, segments, snapshot, standings, stored, update
from talk import CLOSED, HELD, TALK, VALUE, asked, talked, told
from waiting import wait_until

# The calls of a connection, with the system's errors for one that was closed or resources that ran out.
CALLS = {
    "accept4": (errno.ECONNABORTED, errno.EMFILE),
    "setsockopt": (errno.EINVAL,),
    "ioctl": (errno.EINVAL,),
    "epoll_ctl": (errno.ENOMEM, errno.ENOSPC),
    "recv": (errno.ECONNRESET, errno.ENOMEM),
    "send": (errno.EPIPE, errno.ENOBUFS),
    "shutdown": (errno.ENOTCONN,),
}
# What the server ends with where a worker can't wait.
REFUSED = "the system refused to watch the connections of a worker"
# The calls of a start.
STARTS = {
    "socket": errno.EMFILE,
    "setsockopt": errno.EINVAL,
    "bind": errno.EACCES,
    "listen": errno.EADDRINUSE,
    "getsockname": errno.ENOBUFS,
    "ioctl": errno.EINVAL,
    "epoll_create1": errno.EMFILE,
    "eventfd": errno.EMFILE,
    "epoll_ctl": errno.ENOSPC,
}
# The calls of a request's connection.
REQUESTS = {
    "socket": errno.EMFILE,
    "connect": errno.ECONNREFUSED,
    "send": errno.EPIPE,
    "recv": errno.ECONNRESET,
}


class Sockets:
    """Which call of a server that is started with `env` fails, from when one does."""

    def __init__(self, snapd, call, number, why):
        self.failing = snapd.file("failing")
        self.env = {
            "LD_PRELOAD": library("sockets"), "SOCKETS_FAIL": f"{call} {number} {why}",
            "SOCKETS_WHILE": str(self.failing),
        }

    def fail(self):
        self.failing.write_bytes(b"")

    def has_failed(self):
        """Whether the call has come. From here on none fails."""
        came = not self.failing.exists()
        self.failing.unlink(missing_ok=True)
        return came


def closed_by(snapd, call, why):
    """How many connections each failure of this call closes before they are answered, in order, until none comes."""
    closed = []
    for number in itertools.count(1):
        sockets, files = Sockets(snapd, call, number, why), segments(snapd, FRESH, FRESH)
        with Server(snapd, *files, scanners=2, env=sockets.env) as server, server.connect() as beside:
            assert told(beside, STATUS) == standings((0, False), (0, False))
            sockets.fail()
            refusals = talked(server, CLOSED)
            got = told(beside, SCAN)
            assert got in (HELD, CLOSED), got[:40]
            closed.append(refusals + (got == CLOSED))
            # All others have ended.
            wait_until(lambda: server.connections() <= 1)
            if not sockets.has_failed():
                return closed
            server.ask(SCAN, HELD)
        with Server(snapd, *files) as server:
            server.ask(SCAN, HELD)


def test_each_call_of_a_conversation_fails(snapd, _):
    for call, reasons in CALLS.items():
        for why in reasons:
            closed = closed_by(snapd, call, why)
            # It comes for each connection, and closes no more than its own.
            assert len(closed) >= len(TALK) and max(closed) <= 1, (call, why, closed)
            # Calls that are tried again, or come after the replies, close none.
            assert any(closed) == (call not in ("accept4", "shutdown")), (call, why, closed)


def test_each_call_of_a_start_fails(snapd, _):
    """It says in one line that the system refused, and the files stay as they are."""
    files = segments(snapd, FRESH, [(0, b""), (1, b"hi")])
    before = [snapd.file(name).read_bytes() for name in files]
    for call, why in STARTS.items():
        for number in itertools.count(1):
            sockets = Sockets(snapd, call, number, why)
            sockets.fail()
            run = snapd(
                "serve", LOOPBACK, *files, "--scanners", 2, "--connections", 0, "--log", "error", env=sockets.env
            )
            came = sockets.has_failed()
            # Without keepalive probes a vanished peer is found at the next write.
            if call == "setsockopt" and run.status == 0:
                break
            assert run.status == (1 if came else 0), (call, number, run)
            assert run.errors.startswith("snapd: ") == came and run.errors.count("\n") == came, (call, number, run)
            # A caller that waits for either line may count on the server.
            assert all((it in run.output) != came for it in (b"listening", b"served 0")), (call, number, run)
            assert before == [snapd.file(name).read_bytes() for name in files]
            if not came:
                break
        assert number > 1, call


def test_an_address_for_which_no_descriptor_is_left(snapd, _):
    """It is said how to raise the limit, of each kind of address."""
    files, advice = segments(snapd, FRESH), "raise the limit of open files (ulimit -n, or fs.file-max)"
    for why, reason in ((errno.EMFILE, "Too many open files"), (errno.ENFILE, "Too many open files in system")):
        for address, words, what in (
            (LOOPBACK, (LOOPBACK,), "there"),
            ("unix:at", ("unix:at",), "there"),
            (LOOPBACK, ("unix:at", "--http", LOOPBACK), "there for HTTP"),
        ):
            sockets = Sockets(snapd, "socket", 1, why)
            sockets.fail()
            run = snapd("serve", *words, *files, "--connections", 0, env=sockets.env)
            line = f"snapd: {address}: can't listen {what}: {reason} (os error {why}): {advice}\n"
            assert sockets.has_failed() and (run.status, run.errors) == (1, line), (words, run)


def test_a_worker_that_cannot_wait_ends_the_server(snapd, _):
    """Its connections are closed. Those of the other worker are served until the next one is dealt to it: then no more
    are accepted, a request that has begun is answered, and the server has failed."""
    sockets, files = Sockets(snapd, "epoll_wait", 1, errno.EBADF), segments(snapd, FRESH, FRESH)
    with Server(snapd, *files, scanners=2, env=sockets.env) as server:
        with server.connect() as first, server.connect() as second:
            streams = [first, second]
            assert [told(stream, update(0, 1, VALUE)) for stream in streams] == [stored(1)] * 2
            sockets.fail()
            for stream in streams:
                told(stream, STATUS)
            wait_until(lambda: not sockets.failing.exists())
            answers, shown = [told(stream, SCAN) for stream in streams], snapshot((1, VALUE), (0, b""))
            assert sorted(answers) == sorted([CLOSED, shown]), [it[:20] for it in answers]
            failed = answers.index(CLOSED)
            other, request = streams[1 - failed], update(1, 1, b"hi")
            other.sendall(request[:-1])
            wait_until(lambda: server.has_read(other))
            # Connections are dealt in turn.
            assert [asked(server, SCAN) for _ in range(failed + 1)] == [shown] * failed + [CLOSED]
            assert told(other, request[-1:]) == stored(1)
        run = server.end()
        # A thread of its own writes the log, so its last line may come after the complaint; nothing else is printed.
        lines, complaint = run.errors.splitlines(), f"snapd: {LOOPBACK}: {REFUSED}"
        assert run.status == 1 and run.errors.endswith("\n") and lines.count(complaint) == 1, run
        assert len(lines) == 3 and server.logged("ERROR", "server") == [f"it ends: {REFUSED}"], run
    with Server(snapd, *files) as server:
        server.ask(SCAN, HELD)


def test_each_call_of_a_request_fails(snapd, _):
    """`call` says so in a line that names the address, and prints nothing. Tried again, an update is stored once."""
    with Server(snapd, *segments(snapd, FRESH)) as server:
        for number, (call, why) in enumerate(REQUESTS.items(), start=1):
            sockets, words = Sockets(snapd, call, 1, why), ("call", server.address, "update", 0, number, "6869")
            sockets.fail()
            run = snapd(*words, env=sockets.env).failed_with(1, server.address)
            # Where the system said why, that is a line of its own.
            assert sockets.has_failed() and run.errors.count("\n") in (1, 2), (call, run)
            sockets.fail()
            snapd(*words, "--tries", 2, env=sockets.env).gave(0, f"stored {number}\n")
            assert sockets.has_failed() and server.scan() == [(number, b"hi")], call
