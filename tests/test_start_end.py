"""What `snapd serve` logs of its start and its end, and what a folder's server has of its words and of its streams."""

import errno
import os
import re
import signal
import subprocess
import time
import urllib.request

from preload import Accepts, library
from serving import LOOPBACK, SCAN, AtSocket, Server, fresh, received, snapshot
from waiting import PATIENCE, comes_to

EMPTY = snapshot((0, b""), (0, b""))
IGNORED = "SIGINT is ignored, as a script has it for what it starts with &: end it with kill {}"
# Starts a program that ignores an interrupt, as a shell without a terminal does with `&`.
DEAF = ("sh", "-c", 'trap "" INT; exec "$@"', "sh")


def board(snapd):
    assert snapd("init", "board", "--count", 2).status == 0
    return ("--dir", "board")


# ---- the log ----

def test_a_start_and_an_end_are_logged(snapd, _):
    """With the version, the process, what is served, and where it really listens: a line each."""
    files, program = fresh(snapd, 2), snapd("--version").output.decode().split("\n")[0]
    for words, what in ((board(snapd), "board"), (files, "S0 S1")):
        more = ("--listen", LOOPBACK, "--connections", 1, *words)
        with AtSocket(snapd, address="unix:here", more=more) as server:
            [line] = server.printed(1)
            place = line.removeprefix("listening ")
            assert not place.endswith(":0")
            start = f"{program} serves {what} as process {server.process.pid}: segments 2, at unix:here {place}"
            comes_to([start], lambda: server.logged("INFO", "server"))
            server.ask(SCAN, EMPTY)
            run = server.end()
            assert run.status == 0 and server.logged() == [start, "it ends: served 1"], run
    with Server(snapd, *files, more=("--log", "warn", "--connections", 0)) as server:
        assert server.end().errors == ""


def test_an_end_by_a_fault_is_logged(snapd, _):
    """As an error, with the reason; and the line by which the program says why it ends is there as well."""
    accepts = Accepts(snapd.folder, 1, 10**6, errno.EBADF)
    env = accepts.env | {"LD_PRELOAD": f"{accepts.env['LD_PRELOAD']}:{library('sleeps')}"}
    why = "16 connections in a row couldn't be accepted"
    with Server(snapd, *fresh(snapd, 2), env=env, more=("--log", "error")) as server:
        run = server.end()
        assert run.status == 1 and server.logged() == [f"it ends: {why}"] == server.logged("ERROR", "server"), run
        assert f"snapd: {LOOPBACK}: {why}" in run.errors.splitlines() and run.errors.count("\n") == 2, run


def test_a_server_that_never_began_logs_neither(snapd, _):
    """It says why in its own line."""
    files = fresh(snapd, 2)
    with Server(snapd, *files) as server:
        assert snapd("serve", server.address, *files).errors == "snapd: S0: it is in use by another snapd\n"
        snapd.file("other").mkdir()
        run = snapd("serve", server.address, *fresh(snapd, 2, folder="other"))
        assert run.status == 1 and run.errors.count("\n") == 1 and run.errors.startswith("snapd: "), run


def test_an_interrupt_that_is_ignored_is_told(snapd, _):
    files = fresh(snapd, 2)
    with Server(snapd, *files, before=DEAF) as server:
        number = server.process.pid
        comes_to([IGNORED.format(number)], lambda: server.logged("INFO", "server")[1:])
        server.process.send_signal(signal.SIGINT)
        server.ask(SCAN, EMPTY)
        subprocess.run(["sh", "-c", f"kill {number}"], check=True)
        assert server.process.wait(PATIENCE) == -signal.SIGTERM
    with Server(snapd, *files) as server:
        comes_to(1, lambda: len(server.logged("INFO", "server")))
        server.process.send_signal(signal.SIGINT)
        assert server.process.wait(PATIENCE) == -signal.SIGINT and len(server.notes()) == 1


# ---- a folder ----

def threads_of(server):
    return len(os.listdir(f"/proc/{server.process.pid}/task"))


def test_a_folder_is_served_by_each_of_its_words(snapd, _):
    """None of them is lost on the way from the folder to its files."""
    words = ("--listen", LOOPBACK, "--socket-mode", "0640", "--scanners", 3, "--connections", 4, "--clients-max", 2)
    with AtSocket(
        snapd, address="unix:here", more=(*board(snapd), *words, "--idle", 1, "--log", "debug", "--http", LOOPBACK)
    ) as server:
        assert server.printed(1)[0].startswith("listening 127.0.0.1:")
        assert os.stat(server.path).st_mode & 0o777 == 0o640
        # Its own, that of the log, one for each segment, one for each scanner, and that of HTTP.
        comes_to(1 + 1 + 2 + 3 + 1, lambda: threads_of(server))
        comes_to(1, lambda: len(server.logged("INFO", "http")))
        page = re.search(r"http://\S+/", server.logged("INFO", "http")[0])[0]
        with urllib.request.urlopen(f"{page}status", timeout=PATIENCE) as reply:
            assert b'"segment"' in reply.read()
        with server.connect() as first, server.connect() as second, server.connect() as third:
            third.sendall(SCAN)
            comes_to(
                ["2 connections are open, and there is no room for more: callers wait"],
                lambda: server.logged("WARN", "accept"),
            )
            # Both say nothing for a second.
            assert first.recv(1) == b"" and second.recv(1) == b""
            assert received(third, len(EMPTY)) == EMPTY
        server.ask(SCAN, EMPTY)
        run = server.end()
        assert run.status == 0 and run.output.endswith(b"served 4\n"), run
        ends = server.logged("DEBUG", "connection")
        assert len(ends) == 4 and ends[:2] == ["unix let go of: it said nothing for too long"] * 2, ends


def test_a_folder_is_served_as_its_words_say_where_they_say_nothing(snapd, _):
    """Two connections that stay, though none says anything, at a socket of mode 0600, and no line of the debug log."""
    with AtSocket(snapd, address="unix:here", more=board(snapd)) as server:
        comes_to(1 + 1 + 2 + 4, lambda: threads_of(server))
        assert os.stat(server.path).st_mode & 0o777 == 0o600
        with server.connect() as first, server.connect() as second:
            time.sleep(1.2)
            for stream in (first, second):
                stream.sendall(SCAN)
                assert received(stream, len(EMPTY)) == EMPTY
        server.ask(SCAN, EMPTY)
        assert len(server.notes()) == 1 and server.process.poll() is None


# ---- standard streams that are closed ----

def test_a_closed_stream_ends_a_server_before_it_opens_a_file(snapd, _):
    """The first file would take the stream's number, and what is printed would be written over its header."""
    folder, files = board(snapd), fresh(snapd, 2)
    held = [snapd.file(name) for name in (*files, "board/segment-00.seg", "board/segment-01.seg")]
    before = [it.read_bytes() for it in held]
    for words in (folder, files):
        for closed in ((0,), (1,), (2,), (0, 1), (1, 2), (0, 1, 2)):
            run = subprocess.run(
                [snapd.path, "serve", LOOPBACK, *words, "--http", LOOPBACK, "--connections", "0"], cwd=snapd.folder,
                stdin=subprocess.DEVNULL, stdout=subprocess.PIPE, stderr=subprocess.PIPE, timeout=PATIENCE,
                preexec_fn=lambda: [os.close(it) for it in closed],
            )
            stream = b"input" if 0 in closed else b"output"
            said = b"" if 2 in closed else b"snapd: standard %s: Bad file descriptor (os error 9)\n" % stream
            assert (run.returncode, run.stdout, run.stderr) == (1, b"", said), (words, closed, run)
            assert [it.read_bytes() for it in held] == before, (words, closed)
