"""The tries of a call: when they come, for how long they go on, and what a stop of the process, several addresses and a
server that comes back do to them."""

import contextlib
import os
import signal
import socket
import subprocess
import threading
import time

from clients import Deaf
from preload import library
from serving import AtSocket, Server, free_port, frame, fresh, received, reset, standings, stored
from test_addresses import named
from waiting import PATIENCE, wait_until

EMPTY = "segment 0 number 0 value -\n"
SNAPSHOT = frame(bytes([0x82, 1]) + bytes(12))


class Counter:
    """A peer that counts its callers, by when they came, and lets this function answer each of them, and hang up."""

    def __init__(self, handle, path=None):
        self.listener = socket.create_server(("127.0.0.1", 0)) if path is None else socket.socket(socket.AF_UNIX)
        if path is not None:
            self.listener.bind(str(path))
            self.listener.listen(9)
        self.address = "127.0.0.1:{1}".format(*self.listener.getsockname()) if path is None else f"unix:{path}"
        self.came, self.handle = [], handle
        self.thread = threading.Thread(target=self.run, daemon=True)
        self.thread.start()

    def run(self):
        with contextlib.suppress(OSError):
            while True:
                stream, _address = self.listener.accept()
                self.came.append(time.monotonic())
                with stream:
                    stream.settimeout(PATIENCE)
                    self.handle(stream)

    def rests(self):
        """How long it was between one caller and the next."""
        return [then - now for now, then in zip(self.came, self.came[1:])]

    def __enter__(self):
        return self

    def __exit__(self, *_):
        # A thread that accepts isn't woken by a close.
        self.listener.shutdown(socket.SHUT_RDWR)
        self.listener.close()
        self.thread.join(PATIENCE)
        assert not self.thread.is_alive()


def hangs_up(stream):
    received(stream, 5)


def begun(snapd, *words, **how):
    """A call that runs, with nothing on its standard input."""
    return subprocess.Popen([snapd.path, "call", *map(str, words)], cwd=snapd.folder, stdin=subprocess.DEVNULL,
                            stdout=subprocess.PIPE, stderr=subprocess.PIPE, text=True, **how)


def ended(process):
    """How it ended: its status, and what it printed and said."""
    output, errors = process.communicate(timeout=PATIENCE)
    return process.returncode, output, errors


def took(snapd, *words, **how):
    began = time.monotonic()
    ran = snapd(*words, **how)
    return ran, time.monotonic() - began


# ---- stopped and continued ----

def stop_and_continue(process):
    assert process.poll() is None, ended(process)
    process.send_signal(signal.SIGSTOP)
    # One that has ended can still be waited for.
    os.waitid(os.P_PID, process.pid, os.WSTOPPED | os.WEXITED | os.WNOWAIT)
    process.send_signal(signal.SIGCONT)


def waits(process):
    """Returns once it waits for the system, or has ended."""
    wait_until(lambda: open(f"/proc/{process.pid}/stat").read().rpartition(")")[2].split()[0] in "SZ", "a wait")


def test_a_call_that_is_stopped_goes_on(snapd, _):
    """While it waits for its answer, over TCP and at a socket, with a time and without."""
    for path in (None, snapd.file("at.sock")):
        for more in (["--timeout", PATIENCE], ["--wait", PATIENCE], []):
            asked, answers = threading.Event(), threading.Event()

            def answer(stream):
                received(stream, 5)
                asked.set()
                answers.wait(PATIENCE)
                stream.sendall(SNAPSHOT)
                stream.recv(1)

            with Counter(answer, path) as peer, begun(snapd, peer.address, "scan", *more) as process:
                assert asked.wait(PATIENCE)
                for _turn in range(3):
                    waits(process)
                    stop_and_continue(process)
                waits(process)
                answers.set()
                assert ended(process) == (0, EMPTY, ""), (path, more)
                assert len(peer.came) == 1
            if path is not None:
                path.unlink()


def test_a_call_that_is_stopped_has_no_more_time(snapd, _):
    """What passes while it is stopped counts."""
    with Counter(lambda stream: stream.recv(100) and stream.recv(1)) as peer:
        began = time.monotonic()
        process = begun(snapd, peer.address, "scan", "--timeout", 2)
        with process:
            wait_until(lambda: peer.came, "the call")
            for _turn in range(10):
                stop_and_continue(process)
                time.sleep(0.1)
            status, _output, errors = ended(process)
        assert (
            status == 1
            and errors.splitlines()[1] == f"snapd: {peer.address}: there was no answer within 2 s (--timeout)"
        ), errors
        assert 1.9 < time.monotonic() - began < 15


def test_a_call_that_is_stopped_while_it_sends_goes_on(snapd, _):
    """The peer reads nothing for a while, and the system keeps little of the request."""
    came, reads = threading.Event(), threading.Event()

    def answer(stream):
        came.set()
        reads.wait(PATIENCE)
        received(stream, int.from_bytes(received(stream, 4), "big"))
        stream.sendall(stored(1))
        stream.recv(1)

    env = {**os.environ, "LD_PRELOAD": library("narrow")}
    with Counter(answer, snapd.file("slow.sock")) as peer:
        words = ["update", 0, 1, "00" * 65_000, "--timeout", PATIENCE]
        with begun(snapd, peer.address, *words, env=env) as process:
            assert came.wait(PATIENCE)
            for _turn in range(3):
                waits(process)
                stop_and_continue(process)
            reads.set()
            assert ended(process) == (0, "stored 1\n", "") and len(peer.came) == 1


# ---- rests ----

def test_tries_rest_in_between(snapd, _):
    """A tenth of a second after the first one, and twice as long after each other one, however they failed."""
    for handle in (hangs_up, reset, lambda stream: (received(stream, 5), stream.sendall(SNAPSHOT[:9]))):
        with Counter(handle) as peer:
            snapd("call", peer.address, "scan", "--tries", 4).failed_with(1, peer.address)
            rests = peer.rests()
        assert len(rests) == 3 and all(0.095 * 2**i <= it < 0.1 * 2**i + 5 for i, it in enumerate(rests)), rests
    # At a free port.
    ran, seconds = took(snapd, "call", f"127.0.0.1:{free_port()}", "scan", "--tries", 4)
    ran.failed_with(1, "no connection")
    assert 0.69 < seconds < 10, seconds


def test_no_rest_where_nothing_failed(snapd, _):
    """Neither before the first try, nor between the two requests of a put, nor after the last try."""
    def answers(stream):
        stream.sendall(standings((6, False)) if received(stream, 5)[4] == 3 else stored(7))
        stream.recv(65_536)

    shortest = []
    with Counter(answers) as peer:
        for _turn in range(5):
            ran, seconds = took(snapd, "call", peer.address, "put", 0, "--value", "x", "--tries", 9, "--wait", 60)
            ran.gave(0, "stored 7\n")
            shortest.append(seconds)
        assert len(peer.came) == 10
    for _turn in range(5):
        with Counter(hangs_up) as peer:
            ran, seconds = took(snapd, "call", peer.address, "scan")
            shortest.append(seconds)
            assert len(peer.came) == 1
    assert min(shortest[:5]) < 0.09 and min(shortest[5:]) < 0.09, shortest


def test_each_request_of_a_put_has_its_own_tries(snapd, _):
    """The rests begin anew with the update: its first one is as long as the first one of the status,
    and not four times as long."""
    updates = []
    for _turn in range(5):
        answers = iter([None, None, standings((6, False)), None, stored(7)])

        def handle(stream):
            received(stream, 5)
            if (answer := next(answers)) is not None:
                stream.sendall(answer)
                stream.recv(65_536)

        with Counter(handle) as peer:
            snapd("call", peer.address, "put", 0, "--value", "x", "--tries", 3).gave(0, "stored 7\n")
            first, second, _between, third = peer.rests()
        assert first >= 0.095 and second >= 0.19 and third >= 0.095, peer.rests()
        updates.append(third)
    assert min(updates) < 0.3, updates


def test_a_call_that_waits_tries_for_so_long(snapd, _):
    """However many tries that takes, and a second apart at most; more often near the end of its time."""
    # (a machine with other work may miss the last and shortest pause)
    for path in (None, snapd.file("at.sock")):
        for _ in range(3):
            with Counter(hangs_up, path) as peer:
                ran, seconds = took(snapd, "call", peer.address, "scan", "--wait", 9)
                rests = peer.rests()
            if min(rests) < 0.09:
                break
        lines = ran.failed_with(1).errors.splitlines()
        assert lines[0].startswith(f"snapd: {peer.address}: the connection ended before the reply: "), lines
        assert lines[1:] == [f"snapd: {peer.address}: there was no answer within 9 s (--wait)"], lines
        # More than `--tries` has at most.
        assert 8.9 < seconds < 25 and 10 < len(rests) < 50, (seconds, rests)
        assert all(it >= low * 0.95 for it, low in zip(rests, (0.1, 0.2, 0.4, 0.8))), rests
        assert max(rests) < 1.5 and min(rests) < 0.09, rests


def test_a_wait_ends_with_the_time_of_the_call(snapd, _):
    """The shorter time ends it, and is printed."""
    with Counter(hangs_up) as peer:
        for wait, timeout, over in ((60, 1, "1 s (--timeout)"), (1, 60, "1 s (--wait)"), (1, 1, "1 s (--timeout)")):
            ran, seconds = took(snapd, "call", peer.address, "scan", "--wait", wait, "--timeout", timeout)
            ran.failed_with(1, f"{peer.address}: there was no answer within {over}\n")
            assert 0.95 < seconds < 10 and ran.errors.count("\n") == 2, (seconds, ran)


def test_an_answer_isnt_hurried_by_a_wait(snapd, _):
    """A request that was sent is waited for, also where the connection was made late; a put asks twice."""
    def answers(stream):
        request = received(stream, 5)
        time.sleep(1.5)
        stream.sendall(standings((6, False)) if request[4] == 3 else stored(7))
        stream.recv(65_536)

    with Counter(answers) as peer:
        snapd("call", peer.address, "put", 0, "--value", "x", "--wait", 1).gave(0, "stored 7\n")
        assert len(peer.came) == 2


# ---- a server that comes back ----

def test_a_server_that_starts_meanwhile(snapd, _):
    """Which `--tries` counts out, and `--wait` waits for: at a port and at a socket."""
    port = free_port()
    for address, make in ((f"127.0.0.1:{port}", Server), ("unix:late.sock", AtSocket)):
        with begun(snapd, address, "put", 0, "--value", "hi", "--wait", PATIENCE) as process:
            time.sleep(0.7)
            assert process.poll() is None, ended(process)
            with make(snapd, *fresh(snapd, 1), address=address) as server:
                assert ended(process) == (0, "stored 1\n", "")
                assert server.scan() == [(1, b"hi")]
        snapd.file("S0").unlink()


def test_a_server_that_starts_again_meanwhile(snapd, _):
    """Under writers, each of which puts one value after the other, and loses none."""
    files, port = fresh(snapd, 2), free_port()
    address, over = f"127.0.0.1:{port}", threading.Event()
    counts, faults = [0, 0], []

    def write(segment):
        while not over.is_set():
            wanted = counts[segment] + 1
            run = snapd("call", address, "put", segment, "--value", wanted, "--after", wanted - 1, "--wait", PATIENCE)
            if (
                run != (0, f"stored {wanted}\n".encode(), "")
                and (run.status, run.output) != (0, f"stored {wanted}\n".encode())
            ):
                faults.append(run)
                return
            counts[segment] = wanted

    writers = [threading.Thread(target=write, args=(it,)) for it in range(2)]
    server = Server(snapd, *files, address=address)
    try:
        for it in writers:
            it.start()
        for _turn in range(4):
            seen = min(counts)
            wait_until(lambda: min(counts) > seen + 2 or faults, "a put")
            server.kill()
            time.sleep(0.3)
            server = Server(snapd, *files, address=address)
        over.set()
        for it in writers:
            it.join()
        assert not faults, faults
        assert server.scan() == [(it, str(it).encode()) for it in counts], (server.scan(), counts)
    finally:
        over.set()
        server.kill()


def test_a_dump_waits_as_a_call(snapd, _):
    address = f"127.0.0.1:{free_port()}"
    words = [snapd.path, "dump", address, "--wait", str(PATIENCE)]
    with subprocess.Popen(
        words, cwd=snapd.folder, stdout=subprocess.PIPE, stderr=subprocess.PIPE, text=True
    ) as process:
        time.sleep(0.5)
        with Server(snapd, *fresh(snapd, 1), address=address):
            status, output, errors = ended(process)
    assert (status, errors) == (0, "") and output.startswith('{"format":"snapd dump"'), (status, errors)
    run = snapd("dump", address, "--wait", 1).failed_with(1, f"{address}: there was no answer within 1 s (--wait)\n")
    assert "Connection refused (os error 111): nobody listens there" in run.errors, run


# ---- several addresses ----

def test_a_silent_address_leaves_time_for_the_next(snapd, _):
    """The first of two takes no caller and refuses none."""
    with Deaf() as deaf:
        port = deaf.place[1]
        with Server(snapd, *fresh(snapd, 1), address=f"127.0.0.2:{port}"):
            env = named("127.0.0.1", "127.0.0.2")
            for more in (["--timeout", 4], ["--wait", 4], ["--wait", 4, "--timeout", 9]):
                ran, seconds = took(snapd, "call", f"two.test:{port}", "scan", *more, env=env)
                ran.gave(0, EMPTY)
                assert 1.8 < seconds < 20, (more, seconds)
        # There is no other server: the call has its time and no more.
        ran, seconds = took(snapd, "call", f"two.test:{port}", "scan", "--timeout", 2, env=env)
        ran.failed_with(1, "no connection to the server could be made")
        assert seconds < 12, seconds


def test_a_name_that_isnt_known_yet(snapd, _):
    """A call that waits looks it up again; an address that is never valid is refused at once."""
    ran = snapd("call", "nobody.invalid:7070", "scan")
    assert (
        ran.status == 1
        and ran.errors.startswith("snapd: nobody.invalid:7070: failed to lookup")
        and ran.errors.count("\n") == 1
    ), ran
    began = time.monotonic()
    ran = snapd("call", "nobody.invalid:7070", "scan", "--wait", 1)
    lines = ran.failed_with(1).errors.splitlines()
    assert lines[0] == "snapd: nobody.invalid:7070: no connection to the server could be made", lines
    assert lines[1].startswith("snapd: nobody.invalid:7070: failed to lookup address information: "), lines
    assert time.monotonic() - began >= 0.95
    for address in ("a:b", "127.0.0.1:70707"):
        snapd("call", address, "scan", "--wait", 60).gave(1, errors=f"snapd: {address}: invalid port value\n")
