"""The server's loop over real sockets, without a service: `try_parts server` answers an update by its number once a
store has rested over it, and everything else at once by 0. The end-to-end tests want it built (`make programs`)."""

import contextlib
import errno
import os
import pathlib
import select
import socket
import struct
import subprocess
import time

from preload import Accepts
from serving import frame, limited, open_files, received, refused, reset, stored, to_its_end
from trials import trial
from waiting import PATIENCE, comes_to


def update(segment=0, number=1):
    return frame(bytes([1, segment]) + number.to_bytes(8, "big") + b"hi")


UPDATE, STORED = update(), stored(1)
SCAN, SCANNED = frame(b"\x02"), stored(0)
NO_REQUEST, MALFORMED = frame(b"\x03\x00"), refused(1)
TOO_LONG, TOO_LARGE = struct.pack(">I", 65_537 + 464), refused(15, 66_000)


class Trial:
    """A server that runs until `connections` have ended, or without end."""

    def __init__(self, workers, micros=0, connections=None, descriptors=None, env=None):
        words = trial("server", workers, micros, *([] if connections is None else [connections]))
        words = words if descriptors is None else limited(descriptors, words)
        self.process = subprocess.Popen(
            words, stdout=subprocess.PIPE, stderr=subprocess.PIPE, env={**os.environ, **(env or {})}
        )
        port = self.process.stderr.readline().decode().removeprefix("listening 127.0.0.1:")
        self.address = ("127.0.0.1", int(port))

    def __enter__(self):
        return self

    def __exit__(self, *_):
        self.process.kill()
        self.process.communicate()

    def connect(self):
        stream = socket.create_connection(self.address, timeout=PATIENCE)
        stream.setsockopt(socket.IPPROTO_TCP, socket.TCP_NODELAY, 1)
        return stream

    def ask(self, request, reply):
        """Asks on a connection of its own."""
        with self.connect() as stream:
            stream.sendall(request)
            assert received(stream, len(reply)) == reply

    def connections(self):
        """How many connections it has: of its sockets one listens."""
        return sum(it.startswith("socket:") for it in open_files(self.process.pid)) - 1

    def descriptors(self):
        return len(open_files(self.process.pid))

    def memory(self):
        """Resident, in kB."""
        status = pathlib.Path(f"/proc/{self.process.pid}/status").read_text()
        return int(status.split("VmRSS:")[1].split()[0])

    def end(self):
        """What it printed: how each connection ended, by its port, then the counts of the gate, then the last line."""
        output, errors = self.process.communicate(timeout=PATIENCE)
        assert (self.process.returncode, errors) == (0, b"")
        *ends, gate, last = output.decode().splitlines()
        return [(int(line.split()[0].split(":")[1]), line.split()[1]) for line in ends], gate, last


def test_each_end_is_noted_with_its_peer(_, __):
    with Trial(1, 0, 5) as trial:
        wanted = []

        def ends(sent, replies, how, ending):
            stream = trial.connect()
            wanted.append((stream.getsockname()[1], how))
            stream.sendall(sent)
            assert received(stream, len(replies)) == replies
            ending(stream)

        ends(UPDATE + SCAN, STORED + SCANNED, "Closed", socket.socket.close)
        ends(SCAN + b"\0\0", SCANNED, "Truncated", socket.socket.close)
        ends(SCAN + TOO_LONG, SCANNED + TOO_LARGE, "TooLarge", socket.socket.close)
        ends(SCAN, SCANNED, "ReadFailed", reset)
        ends(b"", b"", "Closed", socket.socket.close)
        noted, gate, last = trial.end()
        assert sorted(noted) == sorted(wanted)
        assert (gate, last) == ("entered 5, left 5", "served 5")


def test_frames_cut_at_each_place(_, __):
    sent = UPDATE + NO_REQUEST + SCAN + frame(b"") + UPDATE + TOO_LONG + UPDATE
    wanted = STORED + MALFORMED + SCANNED + MALFORMED + STORED + TOO_LARGE
    with Trial(2, 0, len(sent)) as trial:
        for cut in range(len(sent)):
            with trial.connect() as stream:
                stream.sendall(sent[:cut])
                time.sleep(0.002)
                try:
                    stream.sendall(sent[cut:])
                except OSError:
                    pass  # the length above the limit came before the cut, and the connection has ended
                assert received(stream, len(wanted)) == wanted, cut
        ends, gate, last = trial.end()
        assert {how for _, how in ends} == {"TooLarge"}
        assert (gate, last) == (f"entered {3 * len(sent)}, left {3 * len(sent)}", f"served {len(sent)}")


def test_the_writing_side_is_shut_down_in_order(_, __):
    with Trial(1, 2_000, 2) as trial:
        for rest in (b"", b"\0\0"):
            with trial.connect() as stream:
                stream.sendall(UPDATE * 3 + rest)
                stream.shutdown(socket.SHUT_WR)
                assert to_its_end(stream) == STORED * 3
        assert [how for _, how in trial.end()[0]] == ["Closed", "Truncated"]


def test_replies_keep_the_order_of_their_requests(_, __):
    with Trial(1, 2_000) as trial, trial.connect() as stream:
        stream.sendall(SCAN + update(0, 7) + SCAN + NO_REQUEST + update(1, 8) + update(5, 9) + SCAN)
        wanted = SCANNED + stored(7) + SCANNED + MALFORMED + stored(8) + refused(2, 2) + SCANNED
        assert received(stream, len(wanted)) == wanted


def test_one_worker_serves_idle_and_active_ones(_, __):
    with Trial(1) as trial:
        idle = [trial.connect() for _ in range(200)]
        with trial.connect() as active:
            for number in range(1, 500):
                active.sendall(update(number % 2, number) + SCAN)
                assert received(active, 26) == stored(number) + SCANNED
        for stream in idle:
            stream.sendall(SCAN)
        for stream in idle:
            assert received(stream, 13) == SCANNED
            stream.close()


def test_five_hundred_connect_at_once(_, __):
    with Trial(2, 0, 500) as trial:
        streams = [socket.socket() for _ in range(500)]
        for stream in streams:
            stream.setblocking(False)
            stream.connect_ex(trial.address)
        for stream in streams:
            stream.settimeout(PATIENCE)
            stream.sendall(SCAN)
        for stream in streams:
            assert received(stream, 13) == SCANNED
            stream.close()
        ends, _, last = trial.end()
        assert len(ends) == 500 and last == "served 500"


def test_a_peer_that_does_not_read_is_read_no_more(_, __):
    for workers in (1, 2):
        with Trial(workers) as trial, trial.connect() as flood:
            trial.ask(UPDATE, STORED)
            before = trial.memory()
            # What the system itself keeps of it has a limit that no machine's settings raise.
            flood.setsockopt(socket.SOL_SOCKET, socket.SO_SNDBUF, 1 << 17)
            flood.setblocking(False)
            chunk, sent, waits = SCAN * 8_192, 0, 0
            while waits < 30:
                try:
                    sent += flood.send(chunk[sent % len(chunk) :])
                    waits = 0
                    assert sent < 64 << 20, "it is still read"
                except BlockingIOError:
                    time.sleep(0.01)
                    waits += 1
            for _ in range(2 * workers):
                trial.ask(UPDATE, STORED)
            assert trial.memory() < before + 8_192, (before, trial.memory())
            # Once its peer reads, it gets every reply.
            flood.settimeout(PATIENCE)
            flood.shutdown(socket.SHUT_WR)
            assert to_its_end(flood) == SCANNED * (sent // len(SCAN))


def answered_while_one_is_out(rest):
    """How many are answered on one worker, each on a connection of its own, while an update is out for `rest`
    seconds."""
    with Trial(1, int(rest * 1_000_000)) as trial, trial.connect() as slow:
        slow.sendall(UPDATE + SCAN)
        count = 0
        while count < 50 and not select.select([slow], [], [], 0)[0]:
            trial.ask(SCAN, SCANNED)
            count += 1
        assert received(slow, 26) == STORED + SCANNED
    # The last one may have been answered after it.
    return count - 1


def test_a_request_that_is_out_holds_nobody_up(_, __):
    """A slow machine answers few in a second. If the request held the others up, each of them would wait for it,
    however long it is out."""
    assert any(answered_while_one_is_out(rest) >= 10 for rest in (1, 4, 16, 50))


def test_peers_that_vanish_harm_nobody(_, __):
    with Trial(2, 20_000, 42) as trial:
        trial.ask(SCAN, SCANNED)
        comes_to(0, trial.connections)
        before = trial.descriptors()
        for number in range(20):
            for ending in (reset, socket.socket.close):
                stream = trial.connect()
                stream.sendall(UPDATE * (1 + number % 3))
                ending(stream)
        comes_to(before, trial.descriptors)
        trial.ask(UPDATE + SCAN, STORED + SCANNED)
        ends, _, last = trial.end()
        assert len(ends) == 42 and last == "served 42"


def test_an_update_whose_peer_is_gone_leaves_the_gate(_, __):
    with Trial(1, 20_000, 2) as trial:
        with trial.connect() as gone:
            gone.sendall(UPDATE)
        trial.ask(UPDATE, STORED)
        assert trial.end()[1:] == ("entered 2, left 2", "served 2")


def requests(length):
    """Requests of so many bytes in all, and their replies."""
    others = length % len(SCAN)
    scans = (length - others * len(NO_REQUEST)) // len(SCAN)
    return SCAN * scans + NO_REQUEST * others, SCANNED * scans + MALFORMED * others


def test_what_comes_behind_a_read_is_read(_, __):
    """Whether it filled the worker's buffer of 4,096 bytes or not: further requests, and the end, at once or later."""
    lengths = (len(SCAN), 4_095, 4_096, 4_097, 8_192, 20_480)
    with Trial(1, 20_000, 3 * len(lengths) + 1) as trial:
        for length in lengths:
            sent, replies = requests(length)
            for rest in (0, 0.05, None):
                with trial.connect() as stream:
                    stream.sendall(sent)
                    if rest is not None:
                        time.sleep(rest)
                        stream.sendall(SCAN)
                        stream.shutdown(socket.SHUT_WR)
                    assert received(stream, len(replies)) == replies
                    if rest is None:
                        stream.sendall(SCAN)
                        stream.shutdown(socket.SHUT_WR)
                    assert to_its_end(stream) == SCANNED
        # The end comes while an update is stored, behind a request.
        with trial.connect() as stream:
            stream.sendall(UPDATE)
            time.sleep(0.005)
            stream.sendall(SCAN)
            stream.shutdown(socket.SHUT_WR)
            assert to_its_end(stream) == STORED + SCANNED
        ends, _, last = trial.end()
        assert last == f"served {3 * len(lengths) + 1}" and len(ends) == 3 * len(lengths) + 1, (ends, last)


def test_random_bytes(_, rng):
    with Trial(2, 0, 101) as trial:
        for number in range(100):
            with trial.connect() as stream:
                start = b"\0\0\0" if number % 2 else b""
                stream.sendall(start + rng.randbytes(rng.randrange(1, 400)))
                try:
                    stream.shutdown(socket.SHUT_WR)
                    to_its_end(stream)
                except OSError:
                    pass
        trial.ask(UPDATE, STORED)
        assert trial.end()[2] == "served 101"


def test_want_of_descriptors_passes(program, _):
    """However long it lasts, it ends nothing: the connections that came meanwhile are served."""
    accepts = Accepts(program.folder, first=2, count=40)
    with Trial(2, env=accepts.env) as trial, trial.connect() as first:
        streams = [trial.connect() for _ in range(3)]
        for stream in [first, *streams]:
            stream.sendall(SCAN)
            assert received(stream, 13) == SCANNED
            stream.close()
        assert accepts.count() == 40


def test_callers_that_are_gone_are_no_faults(program, _):
    accepts = Accepts(program.folder, first=2, count=40, why=errno.ECONNABORTED)
    with Trial(2, env=accepts.env) as trial:
        for _ in range(2):
            trial.ask(SCAN, SCANNED)
        assert accepts.count() == 40


def test_fifteen_faults_in_a_row_end_nothing(program, _):
    accepts = Accepts(program.folder, first=2, count=15, why=errno.EINVAL)
    with Trial(2, 0, 2, env=accepts.env) as trial:
        with trial.connect() as first:
            comes_to(15, accepts.count)
            first.sendall(SCAN)
            assert received(first, 13) == SCANNED
        trial.ask(SCAN, SCANNED)
        assert trial.end()[2] == "served 2"


def test_a_sixteenth_fault_in_a_row_ends_it(program, _):
    """Callers are refused then, peers with nothing under way are closed, and a peer that began a request may end it."""
    accepts = Accepts(program.folder, first=3, count=16, why=errno.EINVAL)
    with Trial(1, env=accepts.env) as trial, trial.connect() as begun:
        begun.sendall(SCAN + SCAN[:-1])
        assert received(begun, 13) == SCANNED
        # The faults begin after the second connection.
        with trial.connect() as quiet:
            assert to_its_end(quiet) == b""
        with contextlib.suppress(ConnectionRefusedError):
            trial.connect()
            raise AssertionError("it listens yet")
        begun.sendall(SCAN[-1:])
        assert to_its_end(begun) == SCANNED
        ends, _, last = trial.end()
        assert last == "16 connections in a row couldn't be accepted"
        assert [how for _, how in ends] == ["Stopped", "Stopped"], ends


def test_no_descriptor_is_left(program, _):
    """Later callers wait in the system's queue, and are served as soon as another one has ended."""
    accepts = Accepts(program.folder)
    with Trial(2, 0, 40, 30, accepts.env) as trial:
        streams = [trial.connect() for _ in range(40)]
        for stream in streams:
            stream.sendall(SCAN)
        comes_to(True, lambda: accepts.count() > 16)
        # Those that were accepted are served meanwhile.
        assert received(streams[0], 13) == SCANNED
        streams[0].sendall(SCAN)
        assert received(streams[0], 13) == SCANNED
        for stream in streams:
            if stream is not streams[0]:
                assert received(stream, 13) == SCANNED
            stream.close()
        assert trial.end()[2] == "served 40"
