"""What `snapd serve` does that no contract asks for, and no other test checks (docs/UNPROVED.md, "What no clause
says")."""

import collections
import contextlib
import errno
import fcntl
import itertools
import os
import pathlib
import select
import socket
import subprocess
import threading
import time

from preload import Accepts, library
from serving import LOG_LINE, LOOPBACK, SCAN, STATUS, Server, frame, free_port, fresh, refused, reset, snapshot
from serving import standings, stored, to_its_end, update
from talk import CLOSED, told
from test_serve_disks import Disk
from test_serve_memory import NO_THREAD
from test_serve_sockets import REFUSED, Sockets
from waiting import comes_to, wait_until

EMPTY = snapshot((0, b""))

# How often each thread is checked, and in how many checks a waiting one has to be asleep.
LOOKS, MOST = 50, 40


def all_sleep(server):
    """Whether each thread of the server sleeps in most checks: it neither runs nor wants a processor."""
    asleep = collections.Counter()
    for _ in range(LOOKS):
        for task in pathlib.Path(f"/proc/{server.process.pid}/task").iterdir():
            asleep[task.name] += task.joinpath("stat").read_text().rpartition(") ")[2].startswith("S")
        time.sleep(0.01)
    return min(asleep.values()) >= MOST


def test_who_waits_sleeps(snapd, _):
    """Neither an idle server wants a processor, nor one whose only update waits for its disk."""
    disk = Disk(snapd)
    with (
        Server(snapd, *fresh(snapd, 2), scanners=2, env=disk.env) as server,
        server.connect() as idle,
        server.connect() as waits,
    ):
        assert told(idle, update(0, 1, b"a")) == stored(1) and told(waits, STATUS) == standings((1, False), (0, False))
        # A thread that spins before it sleeps does so for less than a millisecond each time, on an idle processor.
        wait_until(lambda: all_sleep(server), "the sleep of an idle server")
        disk.says("S1 sync hold 0")
        waits.sendall(update(1, 1, b"a"))
        disk.wait_for_hold()
        # A call that is held asks again and again whether it may go on, and one that rests doesn't.
        disk.says("S1 sync rest 1000000000")
        wait_until(lambda: all_sleep(server), "the sleep of a server that waits for its disk")


def test_each_thread_of_a_start_is_refused(snapd, _):
    """It complains, and doesn't listen: a caller that waits for that line may count on all threads."""
    files = fresh(snapd, 2)
    for number in itertools.count(1):
        env = {"LD_PRELOAD": library("threads"), "THREADS_REFUSE": str(number)}
        run = snapd("serve", LOOPBACK, *files, "--scanners", 3, "--connections", 0, env=env)
        if run.status == 0:
            break
        assert run.status == 1 and b"listening" not in run.output, (number, run)
        assert run.errors in (f"snapd: {NO_THREAD}", f"snapd: {LOOPBACK}: {NO_THREAD}"), (number, run)
    # The log's, two that store, and three that serve.
    assert number == 1 + 2 + 3 + 1 and b"served 0" in run.output, (number, run)


def test_faults_of_a_listener_are_rested_behind(snapd, _):
    """For twice as long after each; and if the system has no room for a connection, for a moment. No sleep ends early,
    so the time measured here is too short only if there was none."""
    for count, why, least in ((6, errno.EBADF, 0.02 * (1 + 2 + 4 + 8 + 16)), (20, errno.EMFILE, 0.01 * 19)):
        accepts = Accepts(snapd.folder, 2, count, why)
        accepts.failed.unlink(missing_ok=True)
        with Server(snapd, *fresh(snapd, 1), env=accepts.env) as server:
            began = time.monotonic()
            server.ask(SCAN, EMPTY)
            comes_to(count, accepts.count)
            assert time.monotonic() - began >= least, why


def name_of(stream):
    """As the server names this peer."""
    return "{}:{}".format(*stream.getsockname())


def test_a_connection_that_finds_no_room_is_noted(snapd, _):
    """The system refuses to watch it: it is closed and noted, and its place among the clients is given back."""
    sockets = Sockets(snapd, "epoll_ctl", 1, errno.ENOSPC)
    with Server(snapd, *fresh(snapd, 1), env=sockets.env, more=("--clients-max", 1)) as server:
        server.ask(SCAN, EMPTY)
        comes_to(0, server.connections)
        sockets.fail()
        with server.connect() as stream:
            name = name_of(stream)
            assert told(stream, SCAN) == CLOSED
        comes_to([f"{name} closed for want of memory"], lambda: server.logged("WARN", "connection"))
        assert sockets.has_failed()
        server.ask(SCAN, EMPTY)


def ends_of(server):
    """How each connection is said to have ended, by its peer."""
    return dict(text.split(" ", 1) for text in server.logged("DEBUG", "connection"))


def test_how_connections_are_let_go_is_noted(snapd, _):
    """Of those ends that no other test names: silence, a peer that left its update, a write that failed,
    and a server that stops."""
    disk = Disk(snapd)
    # Its one worker doesn't store itself, so it sees the end of a connection whose update is under way.
    with Server(snapd, *fresh(snapd, 1), scanners=1, env=disk.env, more=("--idle", 1, "--log", "debug")) as server:
        disk.says("S0 sync hold 0")
        with server.connect() as quiet, server.connect() as gone:
            wanted = {
                name_of(quiet): "let go of: it said nothing for too long",
                name_of(gone): "lost while an update was under way",
            }
            gone.sendall(update(0, 1, b"a"))
            disk.wait_for_hold()
            reset(gone)
            assert to_its_end(quiet) == b""
            comes_to(wanted, lambda: ends_of(server))
        # Both descriptors are given back, while the outcome of the one's update is still to come.
        comes_to(0, server.connections)
        disk.says()
    sockets = Sockets(snapd, "send", 1, errno.EPIPE)
    with (
        Server(snapd, *fresh(snapd, 1), env=sockets.env, more=("--log", "debug")) as server,
        server.connect() as stream,
    ):
        sockets.fail()
        assert told(stream, SCAN) == CLOSED
        comes_to({name_of(stream): "lost while it was written"}, lambda: ends_of(server))
    accepts = Accepts(snapd.folder, 2, 10**6, errno.EBADF)
    env = accepts.env | {"LD_PRELOAD": f"{accepts.env['LD_PRELOAD']}:{library('sleeps')}"}
    with Server(snapd, *fresh(snapd, 1), env=env, more=("--log", "debug")) as server, server.connect() as idle:
        with contextlib.suppress(ConnectionError):
            assert to_its_end(idle) == b""
        comes_to({name_of(idle): "let go of: the server stops"}, lambda: ends_of(server))


def has_ended(stream):
    """Whether nothing more will come, of a stream of which nothing has come."""
    ready, _, _ = select.select([stream], [], [], 0)
    return bool(ready) and stream.recv(1, socket.MSG_PEEK) == b""


def test_who_talks_is_not_let_go_of(snapd, _):
    """Nor a peer that waits for its update, whether it sends something in between or not. Beside them a silent one is
    closed, not before its time, and one that began a request and sends no more."""
    disk, may, ended = Disk(snapd), 3, []
    with (
        Server(snapd, *fresh(snapd, 2), scanners=1, env=disk.env, more=("--idle", may)) as server,
        contextlib.ExitStack() as peers,
    ):
        disk.says("S0 sync hold 0", "S1 sync hold 0")
        began = time.monotonic()
        quiet, begun, waits, asks, *talking = (peers.enter_context(server.connect()) for _ in range(6))
        begun.sendall(SCAN[:3])
        waits.sendall(update(0, 1, b"a"))
        asks.sendall(update(1, 1, b"a"))
        disk.wait_for_hold()
        # For twice as long as one may be silent, with rests that are far shorter. After each the worker is woken by the
        # one's request: then it checks all, and finds the other one silent, which talks next.
        for turn in range(150):
            time.sleep(0.05)
            for stream in talking:
                assert told(stream, SCAN) == snapshot((0, b""), (0, b""))
            if turn == 1:
                asks.sendall(STATUS)
            if not ended and has_ended(quiet):
                ended.append(time.monotonic() - began)
        assert to_its_end(quiet) == b"" and to_its_end(begun) == b""
        assert not ended or ended[0] >= may, ended
        disk.says()
        assert [told(waits), told(asks), told(asks)[4]] == [stored(1), stored(1), 0x83]


def test_who_came_is_served_to_its_own_end(snapd, _):
    """Once as many have come as were asked for, no peer is closed for a moment's silence."""
    with Server(snapd, *fresh(snapd, 1), scanners=2, connections=3) as server:
        with server.connect() as first, server.connect() as second, server.connect() as third:
            for stream in 5 * (third, second, first):
                assert told(stream, SCAN) == EMPTY
                time.sleep(0.05)
        run = server.end()
        assert (run.status, run.output) == (0, b"served 3\n"), run


def test_want_of_room_is_told_once(snapd, _):
    """And how many are open then; however often it is asked again whether there is room,
    which it is each hundredth of a second."""
    with Server(snapd, *fresh(snapd, 1), more=("--clients-max", 2)) as server:
        with server.connect() as first, server.connect() as second, server.connect() as third:
            assert [told(first, SCAN), told(second, SCAN)] == [EMPTY] * 2
            third.sendall(SCAN)
            comes_to(True, lambda: bool(server.logged("WARN", "accept")))
            time.sleep(0.5)
            wanted = ["2 connections are open, and there is no room for more: callers wait"]
            assert server.logged("WARN", "accept") == wanted
            second.close()
            assert told(third) == EMPTY


def test_who_began_a_request_keeps_no_server_that_stops(snapd, _):
    """The server waits for as long as it continues, and five seconds after its last byte."""
    accepts = Accepts(snapd.folder, 2, 10**6, errno.EBADF)
    env = accepts.env | {"LD_PRELOAD": f"{accepts.env['LD_PRELOAD']}:{library('sleeps')}"}
    with Server(snapd, *fresh(snapd, 1), env=env, more=("--log", "debug")) as server, server.connect() as begun:
        begun.sendall(SCAN[:2])
        comes_to(1, lambda: len(server.logged("WARN", "accept")))
        begun.sendall(SCAN[2:-1])
        began, name = time.monotonic(), name_of(begun)
        assert to_its_end(begun) == b""
        assert time.monotonic() - began > 4.5
        comes_to({name: "let go of: it said nothing for too long"}, lambda: ends_of(server))
        assert server.end().status == 1


def test_a_worker_that_failed_is_told_where_all_have_come(snapd, _):
    """As many connections as were asked for were dealt before one of the workers failed:
    they aren't said to be served."""
    sockets = Sockets(snapd, "epoll_wait", 1, errno.EBADF)
    with Server(snapd, *fresh(snapd, 1), scanners=2, connections=2, env=sockets.env) as server:
        with server.connect() as first, server.connect() as second:
            streams = [first, second]
            assert [told(stream, SCAN) for stream in streams] == [EMPTY] * 2
            sockets.fail()
            for stream in streams:
                told(stream, STATUS)
            wait_until(lambda: not sockets.failing.exists())
            answers = [told(stream, SCAN) for stream in streams]
            assert sorted(answers) == sorted([CLOSED, EMPTY]), answers
        run = server.end()
        assert (run.status, run.output) == (1, b"") and f"snapd: {LOOPBACK}: {REFUSED}" in run.errors.splitlines(), run


def told_of(snapd):
    """The file that lists the calls on sockets, and the environment in which it does."""
    path = snapd.file("calls")
    path.unlink(missing_ok=True)
    return path, {"LD_PRELOAD": library("sockets"), "SOCKETS_TOLD": str(path)}


# What has small writes go out without delay.
NO_DELAY = f"setsockopt {socket.IPPROTO_TCP} {socket.TCP_NODELAY} 1"


def test_what_is_asked_of_sockets(snapd, _):
    """Of each connection the writing side alone is shut down, and of the listener both; no small write is delayed; and
    the queue of callers is as long as the system lets it be."""
    path, env = told_of(snapd)
    with Server(snapd, *fresh(snapd, 1), connections=3, env=env) as server:
        for _ in range(3):
            server.ask(SCAN, EMPTY)
        assert server.end().output == b"served 3\n"
    calls = path.read_text().splitlines()
    assert sorted(it for it in calls if it.startswith("shutdown")) == ["shutdown 1"] * 3 + ["shutdown 2"], calls
    assert calls.count(NO_DELAY) == 3, calls
    longest = int(pathlib.Path("/proc/sys/net/core/somaxconn").read_text())
    (queue,) = [int(it.split()[1]) for it in calls if it.startswith("listen")]
    assert queue < 0 or queue >= longest, (queue, longest)
    with Server(snapd, *fresh(snapd, 1)) as server:
        path, env = told_of(snapd)
        snapd("call", server.address, "scan", env=env).gave(0, "segment 0 number 0 value -\n")
        assert NO_DELAY in path.read_text().splitlines()


def test_each_number_of_a_name_is_tried(snapd, _):
    """The first that can be bound is served, and printed; if none can, the reason is the last one's."""
    files = fresh(snapd, 1)

    def env(*numbers):
        return {"LD_PRELOAD": library("names"), "NAMES_OF": " ".join(("several.test", *numbers))}

    # No machine has the first: it is for documents.
    for numbers in (("192.0.2.1", "127.0.0.1"), ("192.0.2.1", "127.0.0.2", "127.0.0.1")):
        with Server(snapd, *files, address="several.test:0", env=env(*numbers)) as server:
            assert server.address.startswith(f"{numbers[1]}:"), server.address
            server.ask(SCAN, EMPTY)
    with Server(snapd, *files) as server:
        port = server.place[1]
        run = snapd(
            "serve", f"several.test:{port}", *fresh(snapd, 1, folder=made(snapd)), env=env("192.0.2.1", "127.0.0.1")
        )
        assert run.errors.startswith(f"snapd: several.test:{port}: can't listen there: Address already in use"), run


def made(snapd):
    snapd.file("other").mkdir()
    return "other"


def test_a_path_that_cannot_be_asked_takes_no_update(snapd, _):
    """Its folder is replaced by a link to itself, so the system can't resolve the path, and nothing may be stored."""
    folder, link = snapd.file("folder"), snapd.file("link")
    folder.mkdir()
    fresh(snapd, 1, folder="folder")
    link.symlink_to("folder")
    with Server(snapd, "link/S0") as server:
        server.ask(update(0, 1, b"a"), stored(1))
        link.unlink()
        link.symlink_to("link")
        server.ask(update(0, 2, b"b"), refused(13, 1))
        comes_to(1, lambda: len(server.logged("ERROR", "store")))
        (line,) = server.logged("ERROR", "store")
        assert line.endswith(": sync: Too many levels of symbolic links (os error 40)"), line


def test_a_migration_looks_before_it_opens(snapd, _):
    """At the standard streams, and at the limit on the length of files. It makes no file where one is in the way."""
    words = 'exec "$0" migrate missing new --index 0 --count 1'
    limit = "files may have 5120 bytes here, and a segment file has 28672: raise the limit (ulimit -f)"
    for line, why in (
        (f"{words} <&-", "standard input: Bad file descriptor"),
        (f"{words} >&-", "standard output: Bad file descriptor"), (f"ulimit -f 10 && {words}", limit),
    ):
        run = subprocess.run(["sh", "-c", line, snapd.path], cwd=snapd.folder, capture_output=True, text=True)
        assert (run.returncode, run.stdout) == (1, "") and run.stderr.startswith(f"snapd: {why}"), (line, run)
        assert not snapd.file("new").exists(), line


def test_a_call_says_what_to_do(snapd, _):
    """If no server listens, if the peer closes before it has answered, and if it answers as no server does."""
    run = snapd("call", f"127.0.0.1:{free_port()}", "scan")
    assert run.status == 1 and run.errors.endswith(": start snapd serve there, or wait for it with --wait\n"), run
    for sent, remedy in ((b"", "send it again, since an update is stored once"), (frame(b"\0"), "check the address")):
        with socket.create_server(("127.0.0.1", 0)) as listener:

            def answers():
                with listener.accept()[0] as stream:
                    stream.recv(100)
                    stream.sendall(sent)

            peer = threading.Thread(target=answers)
            peer.start()
            run = snapd("call", "127.0.0.1:{1}".format(*listener.getsockname()), "scan")
            peer.join()
        assert run.status == 1 and run.errors.endswith(f": {remedy}\n"), (sent, run)


class Logged:
    """What comes out of a pipe that takes no more once it holds a page."""

    def __init__(self):
        self.reader, self.writer = os.pipe()
        fcntl.fcntl(self.writer, fcntl.F_SETPIPE_SZ, 4_096)
        os.set_blocking(self.writer, False)
        os.set_blocking(self.reader, False)
        self.text = ""

    def count(self):
        """How many lines of connections have come, and how many lines are said to be lost."""
        with contextlib.suppress(BlockingIOError):
            self.text += os.read(self.reader, 65_536).decode()
        lines = [LOG_LINE.fullmatch(line) for line in self.text.splitlines() if line]
        lost = [int(it[3].removeprefix("lines lost: ")) for it in lines if it[2] == "log"]
        return sum(it[2] == "connection" for it in lines), sum(lost)

    def close(self):
        os.close(self.reader)
        os.close(self.writer)


def test_a_line_that_cannot_be_written_ends_no_log(snapd, _):
    """Standard error takes no more for a while. Of each connection comes a line,
    or it is counted among those that were lost."""
    logged = Logged()
    words = [snapd.path, "serve", LOOPBACK, *fresh(snapd, 1), "--log", "debug"]
    process = subprocess.Popen(
        words, cwd=snapd.folder, stdin=subprocess.DEVNULL, stdout=subprocess.PIPE, stderr=logged.writer
    )
    try:
        address = [process.stdout.readline() for _ in range(3)][-1].decode().removeprefix("listening ").strip()
        for _ in range(100):
            assert snapd("call", address, "status").status == 0
        taken, _ = logged.count()
        assert taken < 100, taken
        assert snapd("call", address, "status").status == 0
        comes_to(101, lambda: sum(logged.count()))
        taken_then, lost = logged.count()
        assert taken_then > taken and lost > 0, (taken, taken_then, lost)
    finally:
        process.kill()
        process.communicate()
        logged.close()
