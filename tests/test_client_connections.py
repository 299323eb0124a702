"""The clients in Python and C over connections that break, wait or end, and jobs that are killed: against the server in
plain Python and against peers that misbehave."""

import contextlib
import re
import select
import signal
import socket
import subprocess
import sys
import threading
import time

from clients import ENVIRONMENT, STORED_ONE, TOP, Client, Peer, ask, begun, ends_right, framed, hangs_up, hangs_up_after
from clients import jobs, kill, oracle, raised, says, says_nothing
from waiting import NO_END, PATIENCE, gets_on, moment, wait_until

import snapd_client
from snapd_client import messages


# ---- connections ----

def test_an_answer_in_any_pieces(_, __):
    def drips(_, connection):
        for byte in STORED_ONE:
            connection.sendall(bytes([byte]))
            time.sleep(0.002)
        connection.recv(1)

    with Peer(says(b"", 16, drips), says(b"", 16, drips)) as peer:
        with Client(peer.address) as client:
            assert client.update(0, 1, b"hi") == 1
        assert ask(peer.address, "update", 0, 1, "hi") == (0, "stored 1\n", "")


def test_a_new_connection_sends_the_same_bytes(_, __):
    frame = messages.update(0, 1, b"hi")
    cuts = [hangs_up, hangs_up_after(5), hangs_up_after(len(frame)), says(STORED_ONE[:7], len(frame), hangs_up)]
    for cut in cuts:
        with Peer(cut, says(STORED_ONE, len(frame)), cut, says(STORED_ONE, len(frame))) as peer:
            with Client(peer.address, tries=2, pause=0.01) as client:
                assert client.update(0, 1, b"hi") == 1
            assert ask(peer.address, "update", 0, 1, "hi", tries=2) == (0, "stored 1\n", "")
        assert peer.heard[1] == peer.heard[3] == frame and frame.startswith(peer.heard[0])


def test_the_third_try_is_stored_once(_, __):
    model = oracle.Model(1)
    with oracle.Server(model) as server:
        def stores_and_hangs_up(peer, connection):
            peer.hear(connection, 16)
            model.answer(peer.heard[-1][4:])

        def passes_on(peer, connection):
            peer.hear(connection, 16)
            with socket.create_connection(server.server_address) as behind:
                behind.sendall(peer.heard[-1])
                connection.sendall(behind.recv(100))
            connection.recv(1)

        with Peer(hangs_up, stores_and_hangs_up, passes_on) as peer, Client(peer.address, pause=0.01) as client:
            assert client.update(0, 1, b"hi") == 1
        with Client(server.address) as client:
            assert client.scan() == ((1, b"hi"),)


def test_no_more_tries_than_were_asked_for(_, __):
    with Peer(*[hangs_up_after(5)] * 3, *[hangs_up_after(5)] * 3) as peer:
        client = Client(peer.address, tries=3, pause=0.001)
        error = raised(client.scan)
        assert type(error) is snapd_client.NotAnswered and error.__cause__ is not None and peer.address in str(error)
        assert ask(peer.address, "scan", tries=3) == (1, "", "not answered\n")


def test_nobody_listens(_, __):
    with socket.create_server(("127.0.0.1", 0)) as listener:
        address = "{}:{}".format(*listener.getsockname())
    assert type(raised(Client(address, tries=2, pause=0.001).scan)) is snapd_client.NotAnswered
    assert ask(address, "scan", tries=2) == (1, "", "not answered\n")


def test_timeouts(_, __):
    began = time.monotonic()
    with Peer(says_nothing, says_nothing) as peer:
        with Client(peer.address, timeout=0.2, tries=1) as client:
            assert type(raised(client.scan)) is snapd_client.TimedOut
        assert ask(peer.address, "scan", timeout=200) == (1, "", "timed out\n")
    assert 0.35 < time.monotonic() - began


def test_a_timeout_is_of_the_whole_answer(_, __):
    """No piece of it is late, and all of them come to the whole answer after a quarter of a minute."""
    def drips(_, connection):
        try:
            for byte in framed("82" + "01" + "00" * 8 + "000000ff" + "00" * 255):
                connection.sendall(bytes([byte]))
                time.sleep(0.05)
        except OSError:
            pass

    with Peer(says(b"", 5, drips), says(b"", 5, drips)) as peer:
        with Client(peer.address, timeout=0.3, tries=1) as client:
            assert type(raised(client.scan)) is snapd_client.TimedOut
        assert ask(peer.address, "scan", timeout=300) == (1, "", "timed out\n")


def test_an_answer_that_comes_late_is_nobodys(_, __):
    gave_up, answered = threading.Event(), threading.Event()

    def answers_late(_, connection):
        gave_up.wait(PATIENCE)
        with contextlib.suppress(OSError):
            connection.sendall(STORED_ONE)
        answered.set()

    snapshot = framed("8201" + "00" * 12)
    with Peer(answers_late, says(snapshot)) as peer:
        with Client(peer.address, timeout=0.2, tries=1) as client:
            assert type(raised(lambda: client.update(0, 1, b"hi"))) is snapd_client.TimedOut
            gave_up.set()
            assert answered.wait(PATIENCE)
            client._timeout = PATIENCE
            assert client.scan() == ((0, b""),)


def test_bytes_that_nobody_asked_for(_, __):
    snapshot = framed("8201" + "00" * 12)
    with Peer(says(snapshot + snapshot), says(snapshot)) as peer:
        with Client(peer.address) as client:
            assert client.scan() == ((0, b""),)
            # Both came at once: the second one is held, or lies in the socket.
            assert isinstance(raised(client.scan), snapd_client.BadReply)
            assert client.scan() == ((0, b""),)


def test_bytes_that_come_between_two_calls(_, __):
    """The first answer has been read by then: they lie in the socket alone."""
    snapshot, was_read = framed("8201" + "00" * 12), threading.Event()

    def says_more(peer, connection):
        was_read.wait(PATIENCE)
        says(snapshot)(peer, connection)

    with Peer(says(snapshot, 5, says_more), says(snapshot)) as peer, Client(peer.address, tries=2) as client:
        assert client.scan() == ((0, b""),)
        was_read.set()
        assert select.select([client._socket], [], [], PATIENCE)[0], "nothing came"
        assert isinstance(raised(client.scan), snapd_client.BadReply)
        assert client.scan() == ((0, b""),)


def test_an_idle_connection_that_the_server_ended_costs_no_try(_, __):
    snapshot = framed("8201" + "00" * 12)
    with Peer(says(snapshot, 5, hangs_up), says(snapshot)) as peer:
        with Client(peer.address, tries=1) as client:
            assert client.scan() == ((0, b""),)
            assert select.select([client._socket], [], [], PATIENCE)[0], "the peer hasn't hung up"
            assert client.scan() == ((0, b""),)


def test_a_client_is_shared_by_threads(_, __):
    with oracle.Server(oracle.Model(4)) as server, Client(server.address) as client:
        def write(segment):
            for number in range(1, 51):
                assert client.update(segment, number, b"%d" % number) == number
                assert client.scan()[segment] == (number, b"%d" % number)

        threads = [threading.Thread(target=write, args=(segment,)) for segment in range(4)]
        for thread in threads:
            thread.start()
        for thread in threads:
            thread.join()
        assert client.scan() == ((50, b"50"),) * 4


def test_a_closed_client_connects_again(_, __):
    with oracle.Server(oracle.Model(1)) as server:
        client = Client(tuple(server.server_address))
        with client:
            client.scan()
        assert client._socket is None
        assert client.update(0, 1, b"hi") == 1
        client.close()


def test_a_close_waits_for_the_call_of_another_thread(_, __):
    closes, seen = threading.Event(), []

    def answers_late(_, connection):
        closes.wait(PATIENCE)
        connection.sendall(STORED_ONE)
        connection.recv(1)

    with Peer(says(b"", 16, answers_late)) as peer, Client(peer.address, tries=1) as client:
        call = threading.Thread(target=lambda: seen.append(client.update(0, 1, b"hi")))
        call.start()
        wait_until(lambda: peer.heard == [messages.update(0, 1, b"hi")])
        closing = threading.Thread(target=client.close)
        closing.start()
        closing.join(0.05)
        assert closing.is_alive() and client._socket is not None
        closes.set()
        call.join()
        closing.join()
        assert seen == [1] and client._socket is None


def test_a_close_between_two_looks_ends_no_wait(_, __):
    model, seen = oracle.Model(1), []
    with oracle.Server(model) as server, Client(server.address, tries=1) as client:
        waiting = threading.Thread(target=lambda: seen.append(client.wait({0: 1}, timeout=PATIENCE)))
        waiting.start()
        for _ in range(5):
            looks = model.answered
            wait_until(lambda: model.answered > looks)
            client.close()
        model.segments[0].store(1, b"")
        waiting.join()
        assert seen == [{0: 1}]


# A signal's handler comes in the middle of its own thread's call.
HANDLER = """
import signal, sys
from snapd_client import Client

client, told = Client(sys.argv[1], timeout=60, tries=2, pause=0.01), []

def handle(*_):
    try:
        client.status()
    except RuntimeError as error:
        told.append(str(error))
    client.close()

signal.signal(signal.SIGUSR1, handle)
print(client.scan(), told)
"""


def test_a_signals_handler_does_not_wait_for_the_call_that_it_came_in(_, __):
    started = []

    def signals(peer, connection):
        peer.hear(connection, 5)
        wait_until(lambda: started)
        started[0].send_signal(signal.SIGUSR1)
        says_nothing(peer, connection)

    with Peer(signals, says(framed("8201" + "00" * 12))) as peer:
        words = [sys.executable, "-c", HANDLER, peer.address]
        started.append(subprocess.Popen(words, env=ENVIRONMENT, stdout=subprocess.PIPE, text=True))
        try:
            output, _ = started[0].communicate(timeout=PATIENCE)
        finally:
            kill(started[0])
        assert (
            output == "(Entry(number=0, value=b''),) [\"a signal's handler came in a call of this client\"]\n"
        ), output


# ---- jobs ----

LIVES = 8


def test_jobs_go_on_where_they_were(program, rng):
    """Each is killed again and again, once it has got on by some steps. A last life has an end,
    and comes to it by itself."""
    with oracle.Server(oracle.Model(2, program.folder)) as server:
        for words, segment in zip(jobs(server.address), server.model.segments):
            for _ in range(LIVES):
                job = begun(words, NO_END)
                try:
                    assert gets_on(lambda: segment.number, rng.randrange(1, 100), lambda: job.poll() is not None), (
                        "it gave up"
                    )
                    moment(rng)
                finally:
                    kill(job)
            steps = segment.number + 50
            ends_right(words, steps)
            assert segment.number == steps


def test_a_job_outlives_its_server(program, _):
    def start(port=0):
        server = subprocess.Popen(
            [sys.executable, str(TOP / "tests" / "oracle" / "server.py"), "--segments", "1", "--folder",
             str(program.folder), "--port", str(port)], stdout=subprocess.PIPE, text=True)
        return server, server.stdout.readline().split()[1]

    server, address = start()
    try:
        with Client(address, tries=20, pause=0.02) as client:
            for number in range(1, 61):
                if number % 20 == 0:
                    server.kill()
                    server.wait()
                    server, _ = start(address.split(":")[1])
                assert client.update(0, number, b"step %d" % number) == number
            assert client.scan() == ((60, b"step 60"),)
    finally:
        server.kill()
        server.wait()


def test_readme_of_the_python_client_runs(_, __):
    text = (TOP / "clients" / "python" / "README.md").read_text()
    listing = re.search(r"```python\n(.*?)```", text, re.DOTALL).group(1)
    with oracle.Server(oracle.Model(1)) as server:
        run = subprocess.run([sys.executable, "-c", listing.replace("127.0.0.1:7070", server.address)],
                             capture_output=True, text=True, env=ENVIRONMENT)
        assert (run.returncode, run.stdout, run.stderr) == (0, "1 False\n", "")
