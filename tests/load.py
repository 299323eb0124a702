"""Writers and readers on a server, each on a connection of its own, and the record of all replies.

They are one thread, so that the record's times are of one clock and the server has the other processors. Each asks
again as soon as it is answered. A writer keeps its segment's number over restarts of the server, as a job does.
"""

import pathlib
import selectors
import struct
import sys
import time

from serving import SCAN, entries_of, update
from waiting import PATIENCE

sys.path.insert(0, str(pathlib.Path(__file__).resolve().parent / "oracle"))

from histories import Scan, Update, judge  # noqa: E402, F401

LENGTHS = (0, 8, 8, 100, 100, 1_000, 4_080)


class Load:
    """Of `count` segments that start fresh. The record is `updates` and `scans`;
    `answered` counts the former's replies."""

    def __init__(self, count, rng):
        self.start = [(0, b"")] * count
        self.numbers = [0] * count
        self.begun = [None] * count
        self.rng = rng
        self.updates, self.scans, self.answered = [], [], 0
        # The different numbers that scans have shown.
        self.moments = set()
        # The value of each update, so that a scan's record needs no copy of it.
        self.values = [{0: b""} for _ in range(count)]

    def judge(self):
        judge(self.start, self.updates, self.scans)

    def next_update(self, segment):
        """The update that this writer is at; a new one, where the last is done."""
        if self.begun[segment] is None:
            number = self.numbers[segment] + 1
            length = self.rng.choice(LENGTHS)
            value = (b"%d.%d " % (segment, number) + self.rng.randbytes(length))[:length]
            self.begun[segment] = Update(segment, number, value, time.monotonic())
            self.updates.append(self.begun[segment])
            self.values[segment][number] = value
        return self.begun[segment]

    def done(self, segment):
        self.begun[segment].ended = time.monotonic()
        self.numbers[segment] += 1
        self.begun[segment] = None

    def scanned(self, began, entries):
        """Notes a scan that was just answered."""
        known = [self.values[segment].get(number) if segment < len(self.values) else None
                 for segment, (number, _) in enumerate(entries)]
        entries = [(number, mine if mine == value else value) for mine, (number, value) in zip(known, entries)]
        self.scans.append(Scan(began, time.monotonic(), entries))
        self.moments.add(tuple(self.scans[-1].numbers))

    def resume(self, server):
        """Scans after a restart, as each writer does. An update that was cut off may be there or not. If not it is sent
        again, or never: then another value gets its number."""
        began = time.monotonic()
        found = server.scan()
        self.scanned(began, found)
        for segment, (number, _) in enumerate(found):
            if self.begun[segment] is None:
                continue
            if number == self.begun[segment].number:
                self.done(segment)
            elif self.rng.random() < 0.5:
                self.updates.remove(self.begun[segment])
                self.begun[segment] = None

    def run(self, server, readers, over):
        """Works until `over()` is true and all requests are answered, or until all connections are closed."""
        clients = [_Writer(self, server.connect(), segment) for segment in range(len(self.start))]
        clients += [_Reader(self, server.connect()) for _ in range(readers)]
        with selectors.DefaultSelector() as ready:
            for client in clients:
                ready.register(client.stream, selectors.EVENT_READ, client)
                client.ask()
            heard, ending = time.monotonic(), False
            while ready.get_map():
                # Short, so that `over` is asked.
                events = ready.select(0.002)
                ending = ending or over()
                for key, _ in events:
                    if not key.data.turn(ending):
                        ready.unregister(key.fileobj)
                heard = time.monotonic() if events else heard
                assert time.monotonic() < heard + PATIENCE, "nobody was answered any more"
        for client in clients:
            client.stream.close()


class _Client:
    def __init__(self, load, stream):
        self.load, self.stream, self.held = load, stream, bytearray()

    def turn(self, ending):
        """Takes in what came, and asks again once the reply is whole. False if that was the last reply, or the
        connection is closed."""
        try:
            piece = self.stream.recv(1 << 17)
            if not piece:
                return False
            self.held += piece
            if len(self.held) < 4 or len(self.held) < 4 + struct.unpack_from(">I", self.held)[0]:
                return True
            payload, self.held = bytes(self.held[4:]), bytearray()
            self.told(payload)
            if not ending:
                self.ask()
            return not ending
        except OSError:
            return False


class _Writer(_Client):
    def __init__(self, load, stream, segment):
        super().__init__(load, stream)
        self.segment = segment

    def ask(self):
        mine = self.load.next_update(self.segment)
        self.stream.sendall(update(self.segment, mine.number, mine.value))

    def told(self, payload):
        number = self.load.begun[self.segment].number
        assert payload == b"\x81" + number.to_bytes(8, "big"), (self.segment, number, payload[:20])
        self.load.done(self.segment)
        self.load.answered += 1


class _Reader(_Client):
    def ask(self):
        self.began = time.monotonic()
        self.stream.sendall(SCAN)

    def told(self, payload):
        self.load.scanned(self.began, entries_of(payload))
