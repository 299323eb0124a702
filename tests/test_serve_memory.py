"""`snapd serve` while memory runs out: each allocation of a start and of a conversation is refused in turn, and all of
them for a while. No request waits for ever, nothing that was acknowledged is lost, and later requests are served."""

import contextlib
import itertools
import signal
import time

import segment_file as layout
from preload import library
from serving import FRESH, LOOPBACK, SCAN, STATUS, Server, comes_to, received, refused, segments, snapshot, stored
from serving import update
from talk import CLOSED, HELD, VALUE, asked, talked, told
from test_serve_disks import Disk
from waiting import wait_until


class Memory:
    """Which allocations of a server that is started with `env` are refused, from when they are."""

    def __init__(self, snapd, number):
        self.wanting = snapd.file("wanting")
        self.env = {
            "LD_PRELOAD": library("allocations"), "ALLOCATIONS_REFUSE": str(number),
            "ALLOCATIONS_WHILE": str(self.wanting),
        }

    def runs_out(self):
        self.wanting.write_bytes(b"")

    def is_there_again(self):
        self.wanting.unlink(missing_ok=True)


def of_both(disk, memory):
    """The environment in which calls of the disk and allocations are refused."""
    return {**disk.env, **memory.env, "LD_PRELOAD": f"{disk.env['LD_PRELOAD']}:{memory.env['LD_PRELOAD']}"}


def started(snapd, count, scanners=1, **more):
    """A server whose threads all run: each worker has scanned, and each store's thread has answered."""
    server = Server(snapd, *segments(snapd, *[FRESH] * count), scanners=scanners, **more)
    for _ in range(scanners):
        server.ask(SCAN, snapshot(*[(0, b"")] * count))
    for segment in range(count):
        server.ask(update(segment, 0), stored(0))
    return server


# The system says no more of a thread that it has no memory for than of one too many.
NO_THREAD = "the system refused a thread: allow more of them, or give --scanners a smaller number\n"


def test_each_allocation_of_a_start_is_refused(snapd, _):
    """It serves, or complains that memory ran out, or that it got no thread, and nothing else. The files stay as they
    are."""
    words = ("serve", LOOPBACK, *segments(snapd, FRESH, [(0, b""), (1, b"hi")]), "--connections", 0, "--log", "error")
    before = [snapd.file(name).read_bytes() for name in ("S0", "S1")]
    env, counted = {"LD_PRELOAD": library("allocations")}, snapd.file("count")
    snapd(*words, env={**env, "ALLOCATIONS_COUNT": str(counted)})
    refusals = threads = 0
    for number in range(1, int(counted.read_text()) + 1):
        run = snapd(*words, env={**env, "ALLOCATIONS_REFUSE": str(number)})
        wanted = (0, "") if b"served 0" in run.output else (3, "snapd: refused 8 NoMemory\n")
        is_thread = run.status == 1 and run.errors in (f"snapd: {NO_THREAD}", f"snapd: {LOOPBACK}: {NO_THREAD}")
        assert (run.status, run.errors) == wanted or is_thread, (number, run)
        # A caller that waits for the line may count on the server.
        assert not is_thread or b"listening" not in run.output, (number, run)
        refusals += run.status == 3
        threads += is_thread
    assert refusals > 100 and threads < 10, (refusals, threads)
    assert before == [snapd.file(name).read_bytes() for name in ("S0", "S1")]


def test_each_allocation_of_a_conversation_is_refused(snapd, _):
    refusals = 0
    for number in itertools.count(1):
        memory = Memory(snapd, number)
        with started(snapd, 2, env=memory.env) as server:
            memory.runs_out()
            refusals += talked(server, CLOSED, refused(8))
            is_last = memory.wanting.exists()
            memory.is_there_again()
            server.ask(SCAN, HELD)
        if is_last:
            break
    assert refusals > 2, (number, refusals)


def test_each_allocation_of_updates_that_queue_is_refused(snapd, _):
    """The first update's store is held while the same update comes over more connections, so the queue to the store
    grows. An update that finds no memory there waits for it a little: none is refused as if the segment were fenced."""
    wanted = stored(1)
    for number in itertools.count(1):
        disk, memory = Disk(snapd), Memory(snapd, number)
        with started(snapd, 1, env=of_both(disk, memory)) as server, contextlib.ExitStack() as peers:
            streams = [peers.enter_context(server.connect()) for _ in range(7)]
            disk.says("S0 sync hold 0")
            streams[0].sendall(update(0, 1, VALUE))
            disk.wait_for_hold()
            memory.runs_out()
            for stream in streams[1:]:
                stream.sendall(update(0, 1, VALUE))
            # It is sent after them, so they have been handed over once it is answered.
            assert asked(server, SCAN) in (snapshot((0, b"")), refused(8), CLOSED), number
            is_last = memory.wanting.exists()
            memory.is_there_again()
            disk.says()
            answers = [told(stream) for stream in streams]
            assert answers[0] == wanted and all(answer in (wanted, CLOSED) for answer in answers), (number, answers)
        if is_last:
            break
    assert number > 12, number


def test_an_outcome_waits_for_memory(snapd, _):
    """While an update is stored, memory runs out for a while: then it is answered, or its connection is closed."""
    disk, memory = Disk(snapd), Memory(snapd, "all")
    with started(snapd, 1, env=of_both(disk, memory)) as server, server.connect() as stream:
        disk.says("S0 sync hold 0")
        stream.sendall(update(0, 1, VALUE))
        disk.wait_for_hold()
        memory.runs_out()
        disk.says()
        comes_to((1, VALUE), lambda: layout.answer_of(snapd.file("S0").read_bytes()))
        time.sleep(0.05)
        memory.is_there_again()
        assert received(stream, len(stored(1))) in (stored(1), b"")
        server.ask(update(0, 1, VALUE) + SCAN, stored(1) + snapshot((1, VALUE)))


# As many outcomes of stores, or connections, at once make a worker's queue grow.
MANY = 16


def warmed(server, peers):
    """Connections whose sessions have the memory that they need, so that each gets its turns without any."""
    streams = []
    for _ in range(200):
        streams.append(peers.enter_context(server.connect()))
        # One comes at a time, so that the queue of connections has room for few.
        assert told(streams[-1], STATUS * 200) != CLOSED
    return streams


@contextlib.contextmanager
def stopped_and_flooded(server, memory, streams):
    """What is done within reaches a server all at once that has no memory, and whose only worker has so much to answer
    that it takes outcomes and connections slowly."""
    server.process.send_signal(signal.SIGSTOP)
    for stream in streams:
        stream.sendall(STATUS * 4_000)
    yield
    memory.runs_out()
    server.process.send_signal(signal.SIGCONT)


def test_outcomes_wait_for_memory(snapd, _):
    """Sixteen outcomes come to a worker while there is none: each update is answered, or its connection is closed."""
    disk, memory = Disk(snapd), Memory(snapd, "all")
    with started(snapd, MANY, env=of_both(disk, memory)) as server, contextlib.ExitStack() as peers:
        flooding = warmed(server, peers)
        streams = [peers.enter_context(server.connect()) for _ in range(MANY)]
        disk.says(*(f"S{segment} sync hold 0" for segment in range(MANY)))
        for segment, stream in enumerate(streams):
            stream.sendall(update(segment, 1, b"a"))
        disk.wait_for_hold()
        for stream in streams:
            wait_until(lambda: server.has_read(stream))
        with stopped_and_flooded(server, memory, flooding):
            disk.says()
        for segment in range(MANY):
            comes_to((1, b"a"), lambda: layout.answer_of(snapd.file(f"S{segment}").read_bytes()))
        time.sleep(0.3)
        memory.is_there_again()
        for stream in streams:
            assert told(stream) in (stored(1), CLOSED)
        server.ask(b"".join(update(segment, 1, b"a") for segment in range(MANY)), stored(1) * MANY)


def test_connections_wait_for_memory(snapd, _):
    """Those that come while there is none are served afterwards, or closed; the server continues."""
    memory = Memory(snapd, "all")
    with started(snapd, 1, scanners=2, env=memory.env) as server:
        memory.runs_out()
        streams = [server.connect() for _ in range(8)]
        for stream in streams:
            stream.sendall(SCAN)
        time.sleep(0.05)
        memory.is_there_again()
        for stream in streams:
            with stream:
                assert told(stream) in (snapshot((0, b"")), refused(8), CLOSED)
        server.ask(update(0, 1, VALUE) + SCAN, stored(1) + snapshot((1, VALUE)))


def test_no_place_is_lost_for_want_of_memory(snapd, _):
    """Connections come to a worker while there is none. After them as many may be open at once as before."""
    memory = Memory(snapd, "all")
    with started(snapd, 1, env=memory.env, more=("--clients-max", 300)) as server:
        with contextlib.ExitStack() as peers:
            with stopped_and_flooded(server, memory, warmed(server, peers)):
                streams = [peers.enter_context(server.connect()) for _ in range(MANY)]
            time.sleep(0.3)
            memory.is_there_again()
            for stream in streams:
                assert told(stream, SCAN) in (snapshot((0, b"")), refused(8), CLOSED)
        with contextlib.ExitStack() as peers:
            streams = [peers.enter_context(server.connect()) for _ in range(300)]
            for stream in streams:
                stream.sendall(SCAN)
            for stream in streams:
                assert told(stream) == snapshot((0, b""))
