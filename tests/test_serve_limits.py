"""`snapd serve` with more callers than it has room for: those wait, all others are served,
and none is lost once there is room."""

import contextlib
import errno
import re
import resource
import signal
import socket
import threading
import time

from clients import Client
from preload import Accepts, library
from serving import LOOPBACK, SCAN, Server, fresh, received, segments, snapshot, stored, to_its_end, update
from test_serve_disks import TWO, Disk
from waiting import PATIENCE, comes_to, wait_until

from snapd_client import TimedOut

FULL = re.compile(r"(\d+) connections are open, and there is no room for more: callers wait")
ROOM = "there is room again: connections are taken"
EMPTY = snapshot((0, b""))


def told(server):
    """How many are open where there was no room, and how often it said that there is again."""
    full = map(FULL.fullmatch, server.logged("WARN", "accept"))
    return [int(found[1]) for found in full if found], server.logged("INFO", "accept").count(ROOM)


def answered(stream, wanted=EMPTY):
    stream.sendall(SCAN)
    return received(stream, len(wanted)) == wanted


# How long a caller may wait for its answer once there is room for it, in seconds. It is a promise, and so a test uses
# the clock; of several callers it takes the one that waited least, since a machine may be busy for a moment.
IN_TIME = 1


def waited(stream, wanted, since):
    """How long after this moment its scan, which has been sent, is answered so."""
    got = received(stream, len(wanted))
    assert got == wanted, got[:40]
    return time.monotonic() - since


def test_callers_wait_where_no_descriptor_is_left(snapd, _):
    """It says so once, and once more when there is room, and no connection is tried that the system could refuse.
    Waiting callers are answered within a second of room."""
    accepts = Accepts(snapd.folder)
    with Server(snapd, *fresh(snapd, 1), scanners=2, descriptors=40, env=accepts.env) as server:
        with contextlib.ExitStack() as open_ones:
            streams = [open_ones.enter_context(server.connect()) for _ in range(60)]
            assert answered(streams[0])
            comes_to(1, lambda: len(told(server)[0]))
            # Those that are there are served meanwhile.
            streams[1].sendall(update(0, 1))
            assert received(streams[1], 13) == stored(1)
            wanted, [taken] = snapshot((1, b"")), told(server)[0]
            # One is closed, and so there is room for the first that waits; then the next ones.
            took = []
            for gone in range(5):
                streams[taken + gone].sendall(SCAN)
                began = time.monotonic()
                streams[gone].close()
                took.append(waited(streams[taken + gone], wanted, began))
            assert min(took) < IN_TIME, took
            late = server.connect()
            late.sendall(SCAN)
        assert received(late, len(wanted)) == wanted
        late.close()
        for _ in range(5):
            with server.connect() as new:
                assert answered(new, wanted)
        comes_to(True, lambda: told(server)[1] >= 1)
        full, _ = told(server)
        assert 1 <= len(full) <= 3 and 10 <= full[0] < 40 and accepts.count() == 0, (full, accepts.count())


def test_a_disk_that_hangs_makes_it_deaf_to_nobody_for_long(snapd, _):
    """Clients that give up and try again leave an update each time. Once the disk is back all are served."""
    disk = Disk(snapd)
    files = segments(snapd, TWO, TWO)
    with Server(snapd, *files, env=disk.env, descriptors=60) as server:
        server.ask(SCAN, snapshot((1, b"hi"), (1, b"hi")))
        disk.says("S0 sync hold 0")
        gone = []
        for _ in range(100):
            with server.connect() as stream:
                stream.sendall(update(0, 2, b"new"))
                gone.append(stream)
        disk.wait_for_hold()
        disk.says()
        server.ask(update(0, 2, b"new") + update(1, 2, b"on"), stored(2) + stored(2))
        server.ask(SCAN, snapshot((2, b"new"), (2, b"on")))


# One listener alone has a descriptor for the next caller at once, while it waits for it.
# Of two the second counts as a connection.
TWO_LISTENERS = ("--listen", LOOPBACK)


def test_want_of_descriptors_where_nothing_is_open_is_told_each_time(snapd, _):
    """No connection is there that could go and make room, and there is room all the same once the process may have
    more."""
    with Server(snapd, *fresh(snapd, 1), more=TWO_LISTENERS) as server:
        process, (soft, hard) = server.process.pid, resource.getrlimit(resource.RLIMIT_NOFILE)
        for times in range(1, 4):
            wait_until(lambda: server.connections() == 1)
            resource.prlimit(process, resource.RLIMIT_NOFILE, (server.descriptors(), hard))
            with server.connect() as stream:
                stream.sendall(SCAN)
                comes_to([0] * times, lambda: told(server)[0])
                resource.prlimit(process, resource.RLIMIT_NOFILE, (soft, hard))
                assert received(stream, len(EMPTY)) == EMPTY
                comes_to(times, lambda: told(server)[1])


def test_room_that_others_made_is_told(snapd, _):
    """Where a connection stays, and the process may have more: more are open than were then, so there is room."""
    with Server(snapd, *fresh(snapd, 1), more=TWO_LISTENERS) as server, contextlib.ExitStack() as open_ones:
        process, (soft, hard) = server.process.pid, resource.getrlimit(resource.RLIMIT_NOFILE)
        for times, count in enumerate((9, 11), 1):
            while server.connections() < 1 + count:
                stream = open_ones.enter_context(server.connect())
                assert answered(stream)
            resource.prlimit(process, resource.RLIMIT_NOFILE, (server.descriptors(), hard))
            late = open_ones.enter_context(server.connect())
            late.sendall(SCAN)
            comes_to([9, 11][:times], lambda: told(server)[0])
            resource.prlimit(process, resource.RLIMIT_NOFILE, (soft, hard))
            assert received(late, len(EMPTY)) == EMPTY
            comes_to(times, lambda: told(server)[1])


class Honest(threading.Thread):
    """A client with an update for a segment of its own, which gives up soon and tries again,
    on a new connection each time."""

    TRIES = 3

    def __init__(self, server, segment):
        super().__init__(daemon=True)
        self.client = Client(server.address, timeout=0.2, tries=self.TRIES, pause=0.01)
        self.segment, self.times_out, self.goes_on, self.stored = segment, 0, threading.Event(), None

    def run(self):
        """One call, and then, once it may go on, as many as it takes."""
        while self.stored is None:
            try:
                self.stored = self.client.update(self.segment, 2, b"new")
            except TimedOut:
                self.times_out += 1
                self.goes_on.wait()


def test_honest_clients_get_through_a_disk_that_hangs(snapd, _):
    """Each try leaves a connection. Below the limit scans and the server's health are answered all the time, and at the
    limit the open connections. Right after the hang each update is acknowledged, and a new caller is answered."""
    disk, accepts = Disk(snapd), Accepts(snapd.folder)
    env = disk.env | accepts.env | {"LD_PRELOAD": f"{disk.env['LD_PRELOAD']}:{accepts.env['LD_PRELOAD']}"}
    files, before = segments(snapd, *[TWO] * 16), snapshot(*[(1, b"hi")] * 16)
    # Beside the files and what the server needs there is room for more than all connections of a first call,
    # and for few more.
    with Server(snapd, *files, env=env, scanners=2, descriptors=100) as server, server.connect() as there:
        assert answered(there, before)
        disk.says(*(f"{file} sync hold 0" for file in files))
        clients = [Honest(server, segment) for segment in range(16)]
        for client in clients:
            client.start()
        while not all(client.times_out for client in clients):
            server.ask(SCAN, before)
            snapd("call", server.address, "health").gave(0, "healthy\n")
        # Each try has left its connection, and the one that asks is there beside them.
        comes_to(16 * Honest.TRIES + 1, server.connections)
        server.ask(SCAN, before)
        snapd("call", server.address, "health").gave(0, "healthy\n")
        assert not told(server)[0] and not any(client.stored for client in clients)
        for client in clients:
            client.goes_on.set()
        comes_to(1, lambda: len(told(server)[0]))
        assert answered(there, before)
        disk.says()
        after = snapshot(*[(2, b"new")] * 16)
        for client in clients:
            client.join(PATIENCE)
        assert [client.stored for client in clients] == [2] * 16
        server.ask(SCAN, after)
        snapd("call", server.address, "health").gave(0, "healthy\n")
        comes_to(True, lambda: told(server)[1] >= 1)
        assert accepts.count() == 0
    with Server(snapd, *files) as server:
        server.ask(SCAN, after)


def test_a_server_that_was_stopped_takes_all_that_called(snapd, _):
    with Server(snapd, *fresh(snapd, 1), descriptors=60) as server, contextlib.ExitStack() as open_ones:
        server.process.send_signal(signal.SIGSTOP)
        streams = [open_ones.enter_context(server.connect()) for _ in range(200)]
        server.process.send_signal(signal.SIGCONT)
        for stream in streams:
            assert answered(stream)
            stream.close()


def test_no_more_clients_than_it_may_have(snapd, _):
    with Server(snapd, *fresh(snapd, 1), more=("--clients-max", 2)) as server:
        first, second, third = (server.connect() for _ in range(3))
        assert answered(first) and answered(second)
        third.sendall(SCAN)
        comes_to([2], lambda: told(server)[0])
        third.settimeout(0.1)
        with contextlib.suppress(TimeoutError, socket.timeout):
            raise AssertionError(f"three were served at once: {third.recv(100).hex()}")
        first.close()
        third.settimeout(10)
        assert received(third, len(EMPTY)) == EMPTY
        second.close()
        third.close()


def ended_by_itself(server):
    """Its status, once it has ended."""
    return server.process.wait(timeout=30)


def test_faults_that_pass_end_nothing(snapd, _):
    """Here the first of sixteen faults in a row, with the rests that they have."""
    accepts = Accepts(snapd.folder, 2, 6, errno.EBADF)
    with Server(snapd, *fresh(snapd, 1), env=accepts.env) as server:
        assert answered(server.connect())
        comes_to(6, accepts.count)
        assert answered(server.connect())
        assert server.process.poll() is None and not server.logged("WARN", "accept")


def test_a_listener_that_fails_for_good_ends_it(snapd, _):
    """It says so at once and takes no more callers. A request that was begun is answered, and the process ends with its
    status. The rests take a thousandth of their time here, and all of them more than three minutes without that."""
    accepts = Accepts(snapd.folder, 2, 10**6, errno.EBADF)
    env = accepts.env | {"LD_PRELOAD": f"{accepts.env['LD_PRELOAD']}:{library('sleeps')}"}
    with Server(snapd, *fresh(snapd, 1), env=env) as server, server.connect() as stream, server.connect() as idle:
        request = update(0, 1, b"begun")
        stream.sendall(request[:9])
        comes_to(
            ["the listener fails: no more connections are taken, and the server stops"],
            lambda: server.logged("WARN", "accept"),
        )
        comes_to(True, lambda: refuses(server))
        stream.sendall(request[9:])
        assert received(stream, 13) == stored(1)
        for connection in (stream, idle):
            with contextlib.suppress(ConnectionResetError):
                assert connection.recv(1) == b""
        run = server.end()
        why = "16 connections in a row couldn't be accepted"
        assert (run.status, accepts.count()) == (1, 16) and f"snapd: {LOOPBACK}: {why}" in run.errors.splitlines(), run
        assert server.logged("ERROR", "server") == [f"it ends: {why}"]


def refuses(server):
    """Whether connections to its address are refused."""
    try:
        server.connect(timeout=1).close()
    except ConnectionRefusedError:
        return True
    except OSError:
        return False
    return False


def keepalive_of(server, stream):
    """Whether the system asks the server's end of this connection whether its peer is there: its timer is `2`."""
    own, _ = server.sockets_of(stream)
    return own is not None and own[5].startswith("02:")


def test_silent_peers_are_asked_whether_they_are_there(snapd, _):
    with Server(snapd, *fresh(snapd, 1)) as server, server.connect() as stream:
        assert answered(stream)
        comes_to(True, lambda: keepalive_of(server, stream))


def test_silent_connections_are_let_go(snapd, _):
    """One that said nothing for a second, or began a request and said no more; not one that waits for its update."""
    disk = Disk(snapd)
    began = time.monotonic()
    with Server(snapd, *segments(snapd, TWO), env=disk.env, more=("--idle", 1, "--log", "debug")) as server:
        disk.says("S0 sync hold 0")
        with server.connect() as quiet, server.connect() as begun, server.connect() as waits, server.connect() as talks:
            begun.sendall(SCAN[:3])
            waits.sendall(update(0, 2, b"late"))
            disk.wait_for_hold()
            for stream in (quiet, begun):
                while not readable(stream):
                    assert time.monotonic() - began < PATIENCE, "a silent connection isn't let go"
                    talks.sendall(SCAN)
                    assert received(talks, len(snapshot((1, b"hi")))) == snapshot((1, b"hi"))
                assert to_its_end(stream) == b""
            assert time.monotonic() - began >= 1
            comes_to(2, lambda: len(server.logged("DEBUG", "connection")))
            disk.says()
            assert received(waits, 13) == stored(2)


def test_who_said_all_is_answered_before_it_is_let_go(snapd, _):
    """Its connection ends by itself, and not for its silence."""
    with Server(snapd, *fresh(snapd, 1), more=("--idle", 1, "--log", "debug")) as server, server.connect() as said:
        name = "{}:{}".format(*said.getsockname())
        said.sendall(SCAN)
        said.shutdown(socket.SHUT_WR)
        assert to_its_end(said) == snapshot((0, b""))
        comes_to([f"{name} closed"], lambda: server.logged("DEBUG", "connection"))


def readable(stream):
    """Whether the stream has something to read, or has ended, within a tenth of a second."""
    timeout = stream.gettimeout()
    stream.settimeout(0.1)
    try:
        stream.recv(1, socket.MSG_PEEK)
        return True
    except (TimeoutError, socket.timeout):
        return False
    finally:
        stream.settimeout(timeout)
