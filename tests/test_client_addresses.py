"""The clients' addresses of servers: Unix sockets, and names with several addresses or none."""

import contextlib
import socket
import threading
import time

from clients import BOTH, Client, Deaf, Peer, ask, begun, ends_right, jobs, kill, oracle, raised, replaced, says
from waiting import PATIENCE, comes_to, gets_on

import snapd_client
from snapd_client import addresses

# How long a call may take beyond what it was given, on a machine that has other work, in seconds.
LATE = 5


# ---- Unix sockets ----

def test_all_clients_ask_through_a_unix_socket(program, _):
    model = oracle.Model(2)
    with oracle.FileServer(model, program.folder / "socket") as server:
        for start, make in zip((0, 3), BOTH):
            with make(server.address) as client:
                assert client.update(0, start + 1, b"hi") == start + 1 and client.scan()[0] == (start + 1, b"hi")
                mine = client.segment(0)
                assert (
                    mine.put(b"yo") == start + 2
                    and mine.get() == b"yo"
                    and client.wait({0: start + 2}, timeout=PATIENCE)
                )
                assert mine.put(b"!") == start + 3 and client.status() == ((start + 3, False), (0, False))
        assert ask(server.address, "update", 1, 1, "hi") == (0, "stored 1\n", "")
        assert ask(server.address, "put", 1, "yo") == (0, "stored 2\n", "")
        assert (
            ask(server.address, "part", "0002")
            == ask(server.address, "get", 1)
            == (0, "segment 1 number 2 value 796f\n", "")
        )
        assert ask(server.address, "wait", 1000 * PATIENCE, 1, 2)[0] == 0


def test_jobs_go_on_through_a_unix_socket(program, rng):
    model = oracle.Model(2)
    with oracle.FileServer(model, program.folder / "socket") as server:
        for words, segment in zip(jobs(server.address), model.segments):
            job = begun(words, 10**9)
            try:
                assert gets_on(lambda: segment.number, rng.randrange(1, 30), lambda: job.poll() is not None), (
                    "it gave up"
                )
            finally:
                kill(job)
            steps = segment.number + 20
            ends_right(words, steps)
            assert segment.number == steps


def test_a_relative_path_and_the_longest_one(program, _):
    path = program.folder / ("s" * (addresses.MAX_PATH - len(str(program.folder)) - 1))
    with oracle.FileServer(oracle.Model(1), path) as server:
        for make in BOTH:
            with make(f"unix:{path}") as client:
                assert client.scan() == ((0, b""),)
        assert ask(server.address, "scan")[0] == 0
        with contextlib.chdir(program.folder) if hasattr(contextlib, "chdir") else contextlib.nullcontext():
            for make in BOTH:
                with make(f"unix:{path.name}" if hasattr(contextlib, "chdir") else f"unix:{path}") as client:
                    assert client.scan() == ((0, b""),)


def test_words_that_no_unix_socket_is_of(_, __):
    for make in BOTH:
        for path in ("", "p" * 108, "é" * 54, "a\0b"):
            assert type(raised(lambda: make(f"unix:{path}"))) is ValueError, path
    for host, port in (("unix:", "0"), ("unix:" + "p" * 108, "0"), ("unix:socket", "1"), ("unix:socket", "-1")):
        with replaced(__import__("clients"), "host_and_port", lambda address: [host, port]):
            assert ask("", "scan")[0] == 2, (host, port)


def test_nobody_listens_on_a_unix_socket(program, _):
    (program.folder / "file").write_bytes(b"")
    left = oracle.FileServer(oracle.Model(1), program.folder / "left")
    left.server_close()
    for name in ("none", "file", "left", "none/none"):
        address = f"unix:{program.folder / name}"
        for make in BOTH:
            with make(address, tries=2, pause=0.001) as client:
                error = raised(client.scan)
                assert type(error) is snapd_client.NotAnswered and address in str(error), error
                assert isinstance(error.__cause__, OSError)
        assert ask(address, "scan", tries=1) == (1, "", "not answered\n")


class Full:
    """A Unix socket whose queue is full, and whose server accepts only in `serve`."""

    def __init__(self, path):
        self.listener = socket.socket(socket.AF_UNIX, socket.SOCK_STREAM)
        self.listener.bind(str(path))
        self.listener.listen(0)
        self.address, self.waiting = f"unix:{path}", []
        with contextlib.suppress(BlockingIOError):
            while True:
                caller = socket.socket(socket.AF_UNIX, socket.SOCK_STREAM)
                self.waiting.append(caller)
                caller.setblocking(False)
                caller.connect(str(path))

    def serve(self, answer):
        """Answers the first client that asks."""
        while True:
            connection, _ = self.listener.accept()
            with connection:
                if connection.recv(5):
                    connection.sendall(answer)
                    connection.recv(1)
                    return

    def __enter__(self):
        return self

    def __exit__(self, *_):
        for it in (self.listener, *self.waiting):
            it.close()


def test_a_full_queue_of_a_unix_socket_is_waited_for(program, _):
    snapshot = bytes.fromhex("0000000e8201" + "00" * 12)
    with Full(program.folder / "full") as full:
        for make in BOTH:
            with make(full.address, timeout=0.2, tries=1) as client:
                assert type(raised(client.scan)) is snapd_client.TimedOut
        assert ask(full.address, "scan", timeout=200) == (1, "", "timed out\n")
    for number, make in enumerate(BOTH):
        with Full(program.folder / f"room{number}") as full, make(full.address, tries=1) as client:
            for it in full.waiting:
                it.close()
            serving = threading.Timer(0.1, full.serve, [snapshot])
            serving.start()
            assert client.scan() == ((0, b""),)
            client.close()
            serving.join()
    with Full(program.folder / "room") as full:
        for it in full.waiting:
            it.close()
        serving = threading.Timer(0.1, full.serve, [snapshot])
        serving.start()
        assert ask(full.address, "scan") == (0, "segment 0 number 0 value -\n", "")
        serving.join()


# ---- names ----

def named(*places, unknown=()):
    """What the system finds for the one name that is asked, and what it does for numbers. First come places of families
    that it doesn't know."""
    asked = socket.getaddrinfo

    def found(host, port, *words, **named):
        if host != "several.test":
            return asked(host, port, *words, **named)
        if named.get("flags", 0) & socket.AI_NUMERICHOST:
            raise socket.gaierror(socket.EAI_NONAME, "a name")
        strange = [(10_000, socket.SOCK_STREAM, 6, "", place) for place in unknown]
        return strange + [(socket.AF_INET, socket.SOCK_STREAM, 6, "", place) for place in places]

    return replaced(socket, "getaddrinfo", found)


def test_a_call_ends_within_its_timeout_however_many_addresses_a_name_has(_, __):
    with Deaf() as deaf, named(*[deaf.place] * 5):
        for make in BOTH:
            with make("several.test:7070", timeout=1, tries=1) as client:
                began = time.monotonic()
                assert type(raised(client.scan)) is snapd_client.TimedOut
                # It took five seconds, one for each address.
                assert 0.95 < time.monotonic() - began < 3
                assert client._socket is None


def test_an_address_that_says_nothing_leaves_time_for_the_next(_, __):
    snapshot = bytes.fromhex("0000000e8201" + "00" * 12)
    with Deaf() as deaf:
        for make, peer in Peer.each(says(snapshot)):
            with peer, named(deaf.place, peer.listener.getsockname()):
                with make("several.test:7070", timeout=4, tries=1) as client:
                    began = time.monotonic()
                    assert client.scan() == ((0, b""),)
                    assert 1.9 < time.monotonic() - began


def test_an_address_that_refuses_costs_no_time(_, __):
    snapshot = bytes.fromhex("0000000e8201" + "00" * 12)
    with socket.create_server(("127.0.0.1", 0)) as listener:
        nobody = listener.getsockname()
    for make, peer in Peer.each(says(snapshot)):
        with peer, named(nobody, nobody, peer.listener.getsockname(), unknown=["a", "b"]):
            with make("several.test:7070", tries=1) as client:
                assert client.scan() == ((0, b""),)
    for make in BOTH:
        with named(nobody, nobody), make("several.test:7070", tries=1) as client:
            error = raised(client.scan)
            assert (
                type(error) is snapd_client.NotAnswered and isinstance(error.__cause__, ConnectionRefusedError)
            ), error
            assert str(error).startswith("several.test:7070: no answer after 1 tries: ")


def test_a_look_up_that_hangs_ends_with_the_timeout(_, __):
    over, asked = threading.Event(), socket.getaddrinfo

    def hangs(host, port, *words, **named):
        if host == "slow.test" and not named.get("flags", 0):
            over.wait(PATIENCE)
        return asked(host, port, *words, **named)

    with replaced(socket, "getaddrinfo", hangs):
        try:
            for make in BOTH:
                with make("slow.test:7070", timeout=0.2, tries=2, pause=0.01) as client:
                    began = time.monotonic()
                    assert type(raised(client.scan)) is snapd_client.TimedOut
                    assert 0.38 < time.monotonic() - began < 0.4 + LATE
        finally:
            over.set()
            comes_to(0, lambda: sum(it.name == "snapd look-up" for it in threading.enumerate()))


def test_a_look_up_that_can_have_no_thread_is_made_all_the_same(_, __):
    def begins_none(*_, **__):
        raise RuntimeError("can't start new thread")

    snapshot = bytes.fromhex("0000000e8201" + "00" * 12)
    for make, peer in Peer.each(says(snapshot)):
        with peer, named(peer.listener.getsockname()), replaced(addresses.threading.Thread, "start", begins_none):
            with make("several.test:7070", tries=1) as client:
                assert client.scan() == ((0, b""),)


def test_a_name_that_is_none(_, __):
    def knows_none(host, port, *words, **named):
        raise socket.gaierror(socket.EAI_NONAME, "Name or service not known")

    with replaced(socket, "getaddrinfo", knows_none):
        for make in BOTH:
            with make("none.test:7070", tries=2, pause=0.001) as client:
                error = raised(client.scan)
                assert type(error) is snapd_client.NotAnswered and isinstance(error.__cause__, socket.gaierror), error
    for make in BOTH:
        with make("a" * 64 + ".test:7070", tries=1) as client:
            assert isinstance(raised(client.scan), ValueError) and client._socket is None


def test_a_number_is_not_looked_up_in_a_thread(_, __):
    with oracle.Server(oracle.Model(1)) as server, replaced(addresses, "look_up", None):
        for make in BOTH:
            with make(server.address) as client:
                assert client.scan() == ((0, b""),)
    with oracle.Server(oracle.Model(1)) as server, Client(("localhost", server.server_address[1])) as client:
        assert client.scan() == ((0, b""),)
