"""Peers of `snapd serve --http` that say nothing, don't read or ask without end: how long they may stay, what they
cost, and that the others are answered."""

import contextlib
import select
import socket
import threading
import time

from http_place import SeenServer
from serving import FRESH, STATUS, fresh, segments, standings, stored, update

REQUEST = b"GET /health HTTP/1.1\r\nhost: x\r\n\r\n"
# How long a connection may not get on, in seconds, and how much later the server may notice.
REST, LATE = 10, 4
HANG_UP = select.POLLRDHUP | select.POLLHUP | select.POLLERR


def narrow(server):
    """A connection whose peer takes little at a time."""
    peer = socket.socket()
    peer.setsockopt(socket.SOL_SOCKET, socket.SO_RCVBUF, 4_096)
    peer.connect(server.seen_at)
    return peer


def fill(peer, request, most=1 << 22):
    """Sends requests and reads nothing, until no more are taken. How many bytes it sent."""
    peer.setblocking(False)
    sent, block = 0, request * 500
    until = time.monotonic() + 2
    while sent < most and time.monotonic() < until:
        try:
            sent += peer.send(block[sent % len(request):])
        except BlockingIOError:
            time.sleep(0.05)
    return sent


def is_over(peer):
    """Whether the other side has ended the connection."""
    poll = select.poll()
    poll.register(peer, HANG_UP)
    return bool(poll.poll(0))


def test_who_does_not_get_on_is_let_go_of_after_ten_seconds(snapd, _):
    """A peer that is silent, one that stops within a request and one that doesn't read: not before, and not much later.
    One that makes progress stays: by a byte of its request now and then, or by a request."""
    with SeenServer(snapd, *fresh(snapd, 1)) as server, contextlib.ExitStack() as open_ones:
        silent, half, deaf, drips, asks = (
            open_ones.enter_context(it)
            for it in (server.call_http(), server.call_http(), narrow(server), server.call_http(), server.call_http())
        )
        began, ended = {silent: time.monotonic()}, {}
        half.sendall(REQUEST[:10])
        began[half] = time.monotonic()
        fill(deaf, b"GET / HTTP/1.1\r\nhost: x\r\n\r\n")
        began[deaf] = time.monotonic()
        dripped, until, asked = 0, time.monotonic() + REST + LATE, 0
        while time.monotonic() < until:
            for peer in began:
                if peer not in ended and is_over(peer):
                    ended[peer] = time.monotonic() - began[peer]
            if time.monotonic() - began[silent] > 3 * dripped:
                drips.sendall(REQUEST[dripped : dripped + 1])
                dripped += 1
                asks.sendall(REQUEST)
                asked += 1
            time.sleep(0.02)
        assert [peer in ended for peer in (silent, half, deaf)] == [True] * 3, ended.values()
        # Of the third its last bytes went before the test knew so, by two seconds at most.
        assert REST - 0.5 < min(ended[silent], ended[half]) and REST - 3 < ended[deaf], ended.values()
        drips.sendall(REQUEST[dripped:])
        assert drips.recv(100).startswith(b"HTTP/1.1 200 OK\r\n")
        answers = b""
        while answers.count(b"HTTP/1.1 200 OK\r\n") < asked or not answers.endswith(b"}\n"):
            piece = asks.recv(10_000)
            assert piece, answers
            answers += piece
        assert asked >= 4 and answers.count(b"HTTP/1.1 200 OK\r\n") == asked


def test_who_asks_and_does_not_read_costs_little(snapd, _):
    """Four peers, each of which sends as many requests as are taken: for the largest answer, and for a small one."""
    with SeenServer(snapd, *segments(snapd, *[FRESH] * 4)) as server, contextlib.ExitStack() as open_ones:
        assert server.get("/metrics")[0] == 200
        before, sent = server.memory(), 0
        for path in (b"/board.js", b"/metrics", b"/board.js", b"/health"):
            sent += fill(open_ones.enter_context(narrow(server)), b"GET " + path + b" HTTP/1.1\r\nhost: x\r\n\r\n")
        # Their answers would be a thousand times that.
        assert sent > 4 * 10_000, sent
        grown = server.memory() - before
        assert grown < 4_000, (before, grown, sent)
        assert server.get("/health")[0] == 200
        server.ask(update(0, 1, b"on"), stored(1))


def hog(server, ended):
    """Asks without end, reads all of it, and counts its answers."""
    counted = [0]
    with server.call_http() as peer:
        def send():
            with contextlib.suppress(OSError):
                while not ended.is_set():
                    peer.sendall(REQUEST * 2_000)

        sending = threading.Thread(target=send)
        sending.start()
        with contextlib.suppress(OSError):
            while not ended.is_set():
                counted[0] += peer.recv(1 << 20).count(b"HTTP/1.1 200 OK\r\n")
                hog.answered = counted[0]
        peer.shutdown(socket.SHUT_RDWR)
        sending.join()


def test_who_asks_without_end_keeps_nobody_waiting(snapd, _):
    """While one connection has always a request more, others are answered, and so are clients;
    none waits for many of its answers."""
    with SeenServer(snapd, *fresh(snapd, 1)) as server:
        ended = threading.Event()
        busy = threading.Thread(target=hog, args=(server, ended))
        hog.answered = 0
        busy.start()
        try:
            most = 0
            for number in range(1, 21):
                before = hog.answered
                assert server.get("/health")[0] == 200
                most = max(most, hog.answered - before)
                server.ask(update(0, number, b"on"), stored(number))
                time.sleep(0.05)
        finally:
            ended.set()
            busy.join()
        assert hog.answered > 2_000, hog.answered
        assert most < hog.answered / 4, (most, hog.answered)


def test_a_server_that_nobody_looked_at_ends(snapd, _):
    """Without any connection over HTTP: the thread that waits for one is woken."""
    with SeenServer(snapd, *fresh(snapd, 1), connections=1) as server:
        server.ask(STATUS, standings((0, False)))
        assert server.end().gave(0, b"served 1\n", server.errors.read_text())
