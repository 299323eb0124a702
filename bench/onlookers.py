"""Writers and scanners that continue over faults of hosts, as clients of a job do, and the record of all replies.

They are one thread on connections of their own. A client whose connection breaks, or that hears nothing for a while,
asks the same again on a new one. An update keeps its number and its value until it is acknowledged, so the record has
it once.
"""

import contextlib
import errno
import pathlib
import selectors
import socket
import struct
import sys
import threading
import time

TOP = pathlib.Path(__file__).resolve().parent.parent
sys.path[:0] = [str(TOP / "tests"), str(TOP / "tests" / "oracle"), str(TOP / "clients" / "python")]

from histories import Scan, Update, Wrong, judge  # noqa: E402
from serving import SCAN, entries_of, update  # noqa: E402

from snapd_client import Client as PythonClient  # noqa: E402
from snapd_client import Refused, SnapdError  # noqa: E402

# How long a client waits for a reply, and rests before it tries anew; and the rest of a scanner between two scans.
# In seconds.
TIMEOUT, PAUSE, BETWEEN_SCANS = 2.0, 0.05, 0.02
LENGTHS = (0, 8, 100, 1_000, 4_080)
# The refusals after which the same update is sent again: the server is about to be started anew, or is short of memory.
PASSING = (6, 8, 13)


class Record:
    """The requests and replies of all segments. `acknowledged` and `shown` have the times of replies, by the place that
    the client asks from."""

    def __init__(self, start, rng):
        self.start, self.rng = start, rng
        self.updates, self.scans = [], []
        self.values = [dict([entry]) for entry in start]
        self.acknowledged, self.shown = {}, {}
        self.refusals = self.given_up = 0

    def judge(self):
        judge(self.start, self.updates, self.scans)

    def next_update(self, segment, number):
        length = self.rng.choice(LENGTHS)
        value = (b"%d.%d " % (segment, number) + self.rng.randbytes(length))[:length]
        self.values[segment][number] = value
        self.updates.append(Update(segment, number, value, time.monotonic()))
        return self.updates[-1]

    def scanned(self, began, entries):
        # Values are kept once, so that a scan's record is short.
        known = [self.values[segment].get(number) for segment, (number, _) in enumerate(entries)]
        entries = [(number, mine if mine == value else value) for mine, (number, value) in zip(known, entries)]
        self.scans.append(Scan(began, time.monotonic(), entries))


class Client:
    """One connection at a time, from a place: `outside`, or within a host."""

    def __init__(self, record, place, address, network=contextlib.nullcontext):
        self.record, self.place, self.address, self.network = record, place, address, network
        self.stream, self.connected, self.asked, self.began = None, False, False, 0.0
        self.held, self.again, self.leaves = bytearray(), 0.0, False

    def move(self, place, network=contextlib.nullcontext):
        """From now on it asks from there, on a new connection."""
        self.place, self.network, self.leaves = place, network, True

    def wants_to_hear(self):
        return selectors.EVENT_READ if self.connected else selectors.EVENT_WRITE

    def begin(self, now):
        """A connection, where there is none and its time has come."""
        if self.stream is not None or now < self.again:
            return
        with self.network():
            self.stream = socket.socket()
        self.stream.setblocking(False)
        self.stream.setsockopt(socket.IPPROTO_TCP, socket.TCP_NODELAY, 1)
        self.held, self.connected, self.asked, self.began = bytearray(), False, False, now
        if self.stream.connect_ex(self.address) not in (0, errno.EINPROGRESS):
            self.drop(now)

    def drop(self, now):
        self.stream.close()
        self.stream, self.again = None, now + PAUSE

    def turn(self, now, is_ready):
        """Continues as far as it can without blocking."""
        try:
            if self.leaves:
                self.leaves = False
                raise ConnectionAbortedError
            if is_ready and not self.connected:
                if fault := self.stream.getsockopt(socket.SOL_SOCKET, socket.SO_ERROR):
                    raise OSError(fault, "connect")
                self.connected = True
            elif is_ready:
                self._hear()
            if self.connected and not self.asked and now >= self.again:
                self.asked, self.began = True, time.monotonic()
                self.stream.sendall(self.request())
            elif now > self.began + TIMEOUT and (self.asked or not self.connected):
                raise TimeoutError
        except OSError:
            self.drop(now)

    def _hear(self):
        piece = self.stream.recv(1 << 17)
        if not piece:
            raise ConnectionResetError
        self.held += piece
        if len(self.held) >= 4 and len(self.held) == 4 + struct.unpack_from(">I", self.held)[0]:
            payload, self.held, self.asked = bytes(self.held[4:]), bytearray(), False
            if payload[0] == 0xE0 and payload[1] in PASSING:
                self.record.refusals += 1
                self.again = time.monotonic() + PAUSE
            else:
                self.told(payload)


class Writer(Client):
    """Updates a segment that has no other writer."""

    def __init__(self, segment, *more):
        super().__init__(*more)
        self.segment, self.number = segment, self.record.start[segment][0]
        self.mine = None

    def request(self):
        if self.mine is None:
            self.mine = self.record.next_update(self.segment, self.number + 1)
        return update(self.segment, self.mine.number, self.mine.value)

    def told(self, payload):
        if payload != b"\x81" + self.mine.number.to_bytes(8, "big"):
            raise Wrong(f"update {self.mine.number} of segment {self.segment} was answered {payload[:20].hex()}")
        self.mine.ended = time.monotonic()
        self.record.acknowledged.setdefault(self.place, []).append(self.mine.ended)
        self.number, self.mine = self.mine.number, None


class Scanner(Client):
    def request(self):
        return SCAN

    def told(self, payload):
        self.record.scanned(self.began, entries_of(payload))
        self.record.shown.setdefault(self.place, []).append(self.record.scans[-1].ended)
        self.again = time.monotonic() + BETWEEN_SCANS


class Job(threading.Thread):
    """A writer that is a job with the Python client, as the recipe has it ask."""

    def __init__(self, segment, record, place, address):
        super().__init__(daemon=True)
        self.segment, self.record, self.place, self.address = segment, record, place, address
        self.number, self.is_over, self.fault = record.start[segment][0], False, None

    def run(self):
        try:
            with PythonClient(self.address, timeout=2, tries=10) as client:
                while not self.is_over:
                    self.store(client, self.record.next_update(self.segment, self.number + 1))
        except BaseException as fault:
            self.fault = fault

    def store(self, client, mine):
        """The same update again and again, until it is acknowledged or all is over."""
        while not self.is_over:
            try:
                self.number = client.update(self.segment, mine.number, mine.value)
                mine.ended = time.monotonic()
                self.record.acknowledged.setdefault(f"{self.place}, by the Python client", []).append(mine.ended)
                return
            except Refused as fault:
                if fault.number not in PASSING:
                    raise Wrong(f"update {mine.number} of segment {self.segment} was refused: {fault}") from fault
                self.record.refusals += 1
            except SnapdError:
                self.record.given_up += 1
            time.sleep(PAUSE)


class Onlookers(threading.Thread):
    """All clients, at work until they are stopped. A fault that one of them found is raised by `look`."""

    def __init__(self, clients, job=None):
        super().__init__(daemon=True)
        self.clients, self.job, self.is_over, self.fault = clients, job, False, None

    def start(self):
        super().start()
        if self.job is not None:
            self.job.start()

    def run(self):
        try:
            while not self.is_over:
                self._round()
        except BaseException as fault:
            self.fault = fault
        for client in self.clients:
            if client.stream is not None:
                client.stream.close()

    def _round(self):
        now = time.monotonic()
        with selectors.DefaultSelector() as ready:
            for client in self.clients:
                client.begin(now)
                if client.stream is not None:
                    ready.register(client.stream, client.wants_to_hear(), client)
            heard = {key.data for key, _ in ready.select(0.02)}
        for client in self.clients:
            if client.stream is not None:
                client.turn(now, client in heard)

    def look(self):
        for it in filter(None, (self, self.job)):
            if it.fault is not None:
                raise it.fault

    def stop(self):
        for it in filter(None, (self, self.job)):
            it.is_over = True
            it.join()
        self.look()
