"""`kill -9` of the server under load, again and again: all that was acknowledged and all that a scan has shown is
there."""

import subprocess
import time

import segment_file as layout
from load import Load
from serving import LOOPBACK, SCAN, Server, fresh, segments, snapshot, stored, update
from waiting import moment

ROUNDS = 100


def test_a_hundred_kills_under_load(snapd, rng):
    """One record over all lives, so that what one has shown binds the next ones."""
    load = Load(16, rng)
    files = fresh(snapd, 16)
    for life in range(ROUNDS):
        # With many workers most have one connection and store themselves, with few the storers do.
        with Server(snapd, *files, scanners=(2, 16)[life // 5 % 2]) as server:
            load.resume(server)
            # Some lives end while the first updates are stored, others after many.
            work = (0, 1, 10, 50, rng.randrange(50, 200))[life % 5]
            answered, scans = load.answered + work, len(load.scans) + work // 2
            has_come = lambda: load.answered >= answered and len(load.scans) >= scans  # noqa: E731
            load.run(server, 8, Killing(server, has_come, rng.uniform(0, 0.002)))
            # Between lives the files answer by themselves, as a reader of the format sees them.
            for segment, file in enumerate(files):
                at, value = layout.answer_of(snapd.file(file).read_bytes())
                assert at - load.numbers[segment] in (0, 1), (life, segment, at)
                assert value == load.values[segment][at], (life, segment, at)
    with Server(snapd, *files) as server:
        load.resume(server)
    load.judge()
    assert load.answered > 5 * ROUNDS, f"{load.answered} updates only"
    assert len(load.scans) > 5 * ROUNDS, f"{len(load.scans)} scans only"


class Killing:
    """Kills the server some seconds after a condition has become true. What it still sends is taken in."""

    def __init__(self, server, has_come, seconds):
        self.server, self.has_come, self.seconds, self.moment = server, has_come, seconds, None

    def __call__(self):
        if self.moment is None and self.has_come():
            self.moment = time.monotonic() + self.seconds
        if self.moment is not None and time.monotonic() >= self.moment:
            self.server.process.kill()
        return False


def test_kills_while_it_starts(snapd, rng):
    """Opening changes nothing, wherever it is cut off, and the next start needs no wait."""
    held = [[(0, b""), (1, b"v%d" % segment)] for segment in range(16)]
    files = segments(snapd, *held)
    before = [snapd.file(file).read_bytes() for file in files]
    for _ in range(40):
        process = subprocess.Popen([snapd.path, "serve", LOOPBACK, *files], cwd=snapd.folder, stdout=subprocess.DEVNULL,
                                   stderr=subprocess.DEVNULL)
        moment(rng, 0.03)
        process.kill()
        process.wait()
    with Server(snapd, *files) as server:
        assert server.scan() == [values[-1] for values in held]
    assert before == [snapd.file(file).read_bytes() for file in files]


def test_the_same_update_after_a_kill_is_stored_once(snapd, rng):
    """A client that doesn't know whether its update was stored sends it again, to the next server."""
    file, = fresh(snapd, 1)
    for number in range(1, 31):
        value = b"step %d" % number
        with Server(snapd, file) as server, server.connect() as stream:
            stream.sendall(update(0, number, value))
            moment(rng, 0.003)
        with Server(snapd, file) as server:
            server.ask(update(0, number, value) * 2 + SCAN, stored(number) * 2 + snapshot((number, value)))
