"""The server in plain Python, for the tests of the clients: segments in memory,
and in a file each where a folder is given.

    python3 server.py --segments N [--folder F] [--port P] [--fence I ..]

It prints `listening ADDRESS` and serves until it is killed. It is written from docs/FORMATS.md alone, knows nothing of
the program's code, and promises nothing about crashes of the machine.
"""

import argparse
import os
import pathlib
import socketserver
import struct
import threading

MAX_PAYLOAD = 66_000
MAX_VALUE = 4_080
LIMIT = (1 << 63) - 1


def refused(code, detail=0):
    return struct.pack(">BBQ", 0xE0, code, detail)


class Segment:
    """A number and a value, in a file where there is a place for one."""

    def __init__(self, path=None):
        self.path, self.number, self.value, self.fenced = path, 0, b"", False
        if path is not None and path.exists():
            held = path.read_bytes()
            self.number, self.value = int.from_bytes(held[:8], "big"), held[8:]

    def store(self, number, value):
        if self.path is not None:
            beside = self.path.with_suffix(".new")
            beside.write_bytes(number.to_bytes(8, "big") + value)
            os.replace(beside, self.path)
        self.number, self.value = number, value


class Model:
    """All segments, one request at a time."""

    def __init__(self, count, folder=None):
        place = (lambda i: pathlib.Path(folder) / f"{i}.seg") if folder else (lambda i: None)
        self.segments = [Segment(place(i)) for i in range(count)]
        self.lock = threading.Lock()
        self.answered = 0

    def answer(self, payload):
        """The payload of the reply to a payload."""
        with self.lock:
            self.answered += 1
            if payload == b"\x02":
                return self.snapshot()
            if payload == b"\x03":
                return self.standings()
            if payload[:1] == b"\x04" and len(payload) == 3 and any(payload[1:]):
                return self.part(int.from_bytes(payload[1:], "big"))
            if payload[:1] == b"\x01" and len(payload) >= 10:
                return self.update(payload[1], int.from_bytes(payload[2:10], "big"), payload[10:])
            return refused(1)

    def snapshot(self):
        entries = b"".join(struct.pack(">QI", s.number, len(s.value)) + s.value for s in self.segments)
        return bytes([0x82, len(self.segments)]) + entries

    def standings(self):
        entries = b"".join(struct.pack(">QB", s.number, s.fenced) for s in self.segments)
        return bytes([0x83, len(self.segments)]) + entries

    def part(self, mask):
        """The segments whose bits the mask has."""
        if mask >> len(self.segments):
            return refused(2, len(self.segments))
        named = [(i, s) for i, s in enumerate(self.segments) if mask >> i & 1]
        entries = b"".join(struct.pack(">BQI", i, s.number, len(s.value)) + s.value for i, s in named)
        return bytes([0x84, len(named)]) + entries

    def update(self, index, number, value):
        if index >= len(self.segments):
            return refused(2, len(self.segments))
        if len(value) > MAX_VALUE:
            return refused(3, len(value))
        segment = self.segments[index]
        if number == segment.number:
            if value != segment.value:
                return refused(4, segment.number)
        elif number != segment.number + 1:
            return refused(5, segment.number)
        elif segment.number == LIMIT:
            return refused(9, segment.number)
        elif segment.fenced:
            return refused(6, segment.number)
        else:
            segment.store(number, value)
        return struct.pack(">BQ", 0x81, number)


class Session(socketserver.BaseRequestHandler):
    def handle(self):
        while True:
            head = self.read(4)
            if head is None:
                return
            length = int.from_bytes(head, "big")
            if length > MAX_PAYLOAD:
                self.say(refused(15, MAX_PAYLOAD))
                return
            payload = self.read(length)
            if payload is None:
                return
            self.say(self.server.model.answer(payload))

    def read(self, count):
        held = b""
        while len(held) < count:
            piece = self.request.recv(count - len(held))
            if not piece:
                return None
            held += piece
        return held

    def say(self, payload):
        self.request.sendall(struct.pack(">I", len(payload)) + payload)


class Behind:
    """What a server is, whatever its socket."""

    allow_reuse_address = True
    daemon_threads = True
    request_queue_size = 128

    def handle_error(self, request, client_address):
        """Ignores clients that closed their connection."""

    def __enter__(self):
        threading.Thread(target=self.serve_forever, kwargs={"poll_interval": 0.01}, daemon=True).start()
        return self

    def __exit__(self, *_):
        self.shutdown()
        self.server_close()


class Server(Behind, socketserver.ThreadingTCPServer):
    """Serves the model at a port of this machine."""

    def __init__(self, model, port=0):
        self.model = model
        super().__init__(("127.0.0.1", port), Session)

    @property
    def address(self):
        return "{}:{}".format(*self.server_address)


class FileServer(Behind, socketserver.ThreadingUnixStreamServer):
    """Serves the model at a Unix socket."""

    def __init__(self, model, path):
        self.model = model
        super().__init__(str(path), Session)

    @property
    def address(self):
        return f"unix:{self.server_address}"


def main():
    words = argparse.ArgumentParser(description="The server in plain Python.")
    words.add_argument("--segments", type=int, default=2)
    words.add_argument("--folder")
    words.add_argument("--port", type=int, default=0)
    words.add_argument("--fence", type=int, action="append", default=[])
    words = words.parse_args()
    model = Model(words.segments, words.folder)
    for index in words.fence:
        model.segments[index].fenced = True
    server = Server(model, words.port)
    print(f"listening {server.address}", flush=True)
    server.serve_forever()


if __name__ == "__main__":
    main()
