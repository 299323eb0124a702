"""`snapd call ADDR health` on a real server: healthy, or which segments are fenced, by the text and by the status."""

import errno
import socket
import threading

from program import Run
from serving import FRESH, Server, free_port, segments, update
from test_serve_disks import TWO, Disk
from waiting import PATIENCE


def health(snapd, server, *more):
    return snapd("call", server.address, "health", *more)


def test_a_server_is_healthy_until_a_disk_fails(snapd, _):
    """Each fence is reported at once, in order of segment, until the server is started again."""
    disk = Disk(snapd)
    files = segments(snapd, TWO, FRESH, TWO)
    with Server(snapd, *files, env=disk.env) as server:
        health(snapd, server).gave(0, "healthy\n")
        snapd("call", server.address, "update", 0, 2, "00").gave(0, "stored 2\n")
        health(snapd, server).gave(0, "healthy\n")
        disk.says(f"S2 sync fail {errno.EIO}")
        snapd("call", server.address, "update", 2, 2, "00").gave(3, errors="snapd: refused 13 DeviceFailed 1\n")
        health(snapd, server).gave(3, "fenced 2\n")
        disk.says(f"S0 write fail {errno.ENOSPC}")
        snapd("call", server.address, "update", 0, 3, "00").gave(3, errors="snapd: refused 13 DeviceFailed 2\n")
        disk.says()
        health(snapd, server, "--tries", 3).gave(3, "fenced 0\nfenced 2\n")
        # Other segments are still served, and a status has the same text and exit status as before.
        snapd("call", server.address, "update", 1, 1, "00").gave(0, "stored 1\n")
        status = "segment 0 number 2 fenced 1\nsegment 1 number 1 fenced 0\nsegment 2 number 1 fenced 1\n"
        snapd("call", server.address, "status").gave(0, status)
        health(snapd, server).gave(3, "fenced 0\nfenced 2\n")
    with Server(snapd, *files) as server:
        health(snapd, server).gave(0, "healthy\n")


def test_all_of_sixteen_are_fenced(snapd, _):
    """The numbers have one digit or two. The last one is fenced too."""
    disk = Disk(snapd)
    with Server(snapd, *segments(snapd, *[FRESH] * 16), env=disk.env) as server:
        disk.says(*(f"S{segment} write fail {errno.EIO}" for segment in range(16)))
        with server.connect() as stream:
            stream.sendall(b"".join(update(segment, 1, b"x") for segment in range(16)))
            answered = b""
            while len(answered) < 16 * 14:
                answered += stream.recv(1_000)
        health(snapd, server).gave(3, "".join(f"fenced {segment}\n" for segment in range(16)))


def test_a_script_sees_the_fence(snapd, _):
    """As a monitor writes it: by the status alone."""
    disk = Disk(snapd)
    with Server(snapd, *segments(snapd, TWO), env=disk.env) as server:
        assert health(snapd, server).status == 0
        disk.says(f"S0 sync fail {errno.EIO}")
        snapd("call", server.address, "update", 0, 2, "00")
        assert health(snapd, server).status == 3


def test_who_doesnt_answer_isnt_healthy(snapd, _):
    """No server, and a peer that answers something else, are reported as for a status."""
    port = free_port()
    for request in ("status", "health"):
        wanted = f"snapd: 127.0.0.1:{port}: no connection to the server could be made\n"
        run = snapd("call", f"127.0.0.1:{port}", request).failed_with(1, "Connection refused")
        assert run.errors.startswith(wanted) and run.errors.count("\n") == 2, run
    with socket.create_server(("127.0.0.1", 0)) as peer:
        peer.settimeout(PATIENCE)

        def answer():
            for _ in range(2):
                stream = peer.accept()[0]
                with stream:
                    stream.recv(100)
                    stream.sendall(bytes([0, 0, 0, 9, 0x81, 0, 0, 0, 0, 0, 0, 0, 1]))

        answering = threading.Thread(target=answer)
        answering.start()
        address = "127.0.0.1:%d" % peer.getsockname()[1]
        runs = [snapd("call", address, request) for request in ("status", "health")]
        answering.join()
    why = (
        f"snapd: {address}: what came isn't an answer to the request: is a snapd at the other end?: check the address\n"
    )
    assert runs == [Run(1, b"", why)] * 2, runs
