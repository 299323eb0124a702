"""Times requests of a server with HTTP clients against those of one without, in turn, in one run.

    python3 bench/seen.py [--folder FOLDER] [--rounds N] [--program bin/snapd] [--json FILE]

Each line has both medians, and the median of the rounds' ratios with their quartiles. In a round each server does the
same half second of work on files of its own, and the order changes from round to round. First `/metrics` is read once a
second, as a monitor does it (aim 1.02), then 1,000 connections ask for the page and read nothing of it, and each that
is closed connects again (aim 1.05). The first two lines compare two servers without HTTP clients: their ratios are
those of the machine alone.
"""

import argparse
import contextlib
import pathlib
import selectors
import socket
import sys
import tempfile
import threading
import time

TOP = pathlib.Path(__file__).resolve().parent.parent
sys.dont_write_bytecode = True
sys.path.insert(0, str(TOP / "tests"))

import figures  # noqa: E402
from http_place import SeenServer  # noqa: E402
from server import SEGMENTS, Bench  # noqa: E402
from serving import Server  # noqa: E402

LENGTH = 1_000
SLOW_READERS = 1_000
# The rest of a closed connection before it connects again, in seconds.
REST = 0.5
WORK = ((0, "update, 1 writer", 1, 0), (0, "update, 16 writers", SEGMENTS, 0), (1, "scan of 16 values", 0, 1))


@contextlib.contextmanager
def in_a_thread(work):
    """Has a thread work until the end of the `with`. The work gets the event that ends it."""
    end = threading.Event()
    thread = threading.Thread(target=work, args=(end,))
    thread.start()
    try:
        yield
    finally:
        end.set()
        thread.join()


def scraped(server):
    """Reads the metrics once a second."""

    def work(end):
        while not end.wait(1):
            assert server.get("/metrics")[0] == 200

    return in_a_thread(work)


def called(server, ready):
    """A connection that asks for the page."""
    peer = socket.create_connection(server.seen_at)
    with contextlib.suppress(OSError):
        peer.sendall(b"GET / HTTP/1.1\r\nhost: x\r\n\r\n")
    peer.setblocking(False)
    ready.register(peer, selectors.EVENT_READ)


def read_slowly(server):
    """Many connections ask for the page, and read only enough of it to notice that they were closed."""

    def work(end):
        with selectors.DefaultSelector() as ready:
            for _ in range(SLOW_READERS):
                called(server, ready)
            while not end.wait(REST):
                gone = [key.fileobj for key, _ in ready.select(0) if is_gone(key.fileobj)]
                for peer in gone:
                    ready.unregister(peer)
                    peer.close()
                    called(server, ready)
            for key in [*ready.get_map().values()]:
                key.fileobj.close()

    return in_a_thread(work)


def is_gone(peer):
    """Whether the other end has closed it. One byte of what came is taken."""
    try:
        return not peer.recv(1)
    except BlockingIOError:
        return False
    except OSError:
        return True


class Seen:
    """A server without HTTP clients, and one with them."""

    def __init__(self, folder, program, rounds):
        self.rounds = rounds
        self.bench = Bench(folder, program, rounds)

    def times(self, label, unseen, seen, work=WORK):
        """Each kind of work on the one and on the other."""
        for kind, name, writers, readers in work:
            measure = lambda server: self.bench.load(server, LENGTH, writers, readers)[kind][1]  # noqa: B023, E731
            measure(unseen), measure(seen)
            pairs = []
            for turn in range(self.rounds):
                found = {it: measure(it) for it in ((unseen, seen) if turn % 2 else (seen, unseen))}
                pairs.append((found[unseen], found[seen]))
            self.bench.figures.show_pairs(f"{f'{label}: {name}':<52}", ("nobody", "somebody"), "us", pairs)

    def run(self):
        files = [self.bench.files(place, LENGTH) for place in ("unseen", "alike", "seen")]
        with Server(self.bench.snapd, *files[0], scanners=4) as unseen:
            with Server(self.bench.snapd, *files[1], scanners=4) as alike:
                self.times("nobody looks", unseen, alike, WORK[::2])
            with SeenServer(self.bench.snapd, *files[2], scanners=4) as seen:
                with scraped(seen):
                    self.times("a monitor", unseen, seen)
                with read_slowly(seen):
                    time.sleep(1)
                    self.times(f"{SLOW_READERS:,} slow readers", unseen, seen, WORK[:1])


def main():
    words = figures.arguments(argparse.ArgumentParser(description="Times a server that somebody looks at by HTTP."))
    words.add_argument("--folder")
    words.add_argument("--rounds", type=int, default=16)
    words.add_argument("--program", default=str(TOP / "bin" / "snapd"))
    words = words.parse_args()
    if words.rounds < 2:
        sys.exit("quartiles want 2 rounds at least")
    if not pathlib.Path(words.program).is_file():
        sys.exit(f"there is no program {words.program}: run make build first")
    with tempfile.TemporaryDirectory(prefix="bench-", dir=words.folder or TOP) as folder:
        print(f"{'':<52} {'nobody':>12} {'somebody':>12}   ratio   (quartiles)")
        seen = Seen(pathlib.Path(folder).resolve(), words.program, words.rounds)
        seen.run()
        seen.bench.figures.write(words.json, folder, words.program)


if __name__ == "__main__":
    main()
