"""The clients in Python and C and their jobs, against `snapd serve` on real files, with kills of either side."""

import re
import subprocess
import sys
import threading

from clients import BOTH, ENVIRONMENT, TOP, Client, ask, begun, compiled, ends_right, jobs, kill, raised, refused
from serving import FRESH, LOOPBACK, Server, fresh, segments
from waiting import NO_END, PATIENCE, gets_on, moment

import snapd_client

HI = [(0, b""), (1, b"hi")]
LONGEST = b"v" * 4_080


def test_both_clients_ask_all_that_there_is(snapd, _):
    with Server(snapd, *segments(snapd, HI, FRESH)) as server, Client(server.address) as client:
        assert client.scan() == ((1, b"hi"), (0, b""))
        assert client.update(1, 1, LONGEST) == 1 and client.update(1, 1, LONGEST) == 1
        assert client.scan()[1] == (1, LONGEST)
        assert client.status() == ((1, False), (1, False))
        assert ask(server.address, "update", 0, 2, "yo") == (0, "stored 2\n", "")
        assert ask(server.address, "scan") == (
            0, f"segment 0 number 2 value 796f\nsegment 1 number 1 value {LONGEST.hex()}\n", "",
        )
        assert ask(server.address, "status") == (0, "segment 0 number 2 fenced 0\nsegment 1 number 1 fenced 0\n", "")
        # What `snapd call` prints is the same.
        for word in ("scan", "status"):
            snapd("call", server.address, word).gave(0, ask(server.address, word)[1])


def test_both_clients_are_refused(snapd, _):
    with Server(snapd, *segments(snapd, HI, [(2**63 - 1, b"end")])) as server, Client(server.address) as client:
        for (segment, number, value), wanted, name, detail in [
            ((2, 1, b""), 2, "NoSegment", 2), ((0, 2, LONGEST + b"v"), 3, "TooLong", 4_081),
            ((0, 1, b"x"), 4, "Conflict", 1),
            ((0, 7, b""), 5, "OutOfStep", 1), ((1, 2**63, b""), 9, "Exhausted", 2**63 - 1),
        ]:
            error = raised(lambda: client.update(segment, number, value))
            assert (
                type(error) is getattr(snapd_client, name) and (error.number, error.detail) == (wanted, detail)
            ), error
            ended = ask(server.address, "update", segment, number, value.decode())
            assert ended == (3, "", f"refused {wanted} {name} {detail}\n"), ended


def test_segments_and_waits_on_the_server(snapd, _):
    with Server(snapd, *segments(snapd, HI, FRESH)) as server:
        for made, make in enumerate(BOTH):
            with make(server.address) as client:
                mine, other = client.segment(0), client.segment(1)
                assert mine.get() == b"hi" and mine.number == 1
                assert other.number == 2 * made and other.put(LONGEST) == 2 * made + 1 and other.get() == LONGEST
                assert client.wait({1: 2 * made + 1, 0: 0}, timeout=PATIENCE) == {0: 1, 1: 2 * made + 1}
                refused(lambda: mine.put(LONGEST + b"v"), 3, 4_081)
                client.update(1, 2 * made + 2, b"a stranger's")
                refused(lambda: other.put(b"mine"), 4, 2 * made + 2)
                assert other.get() == b"a stranger's" and other.number == 2 * made + 2
                refused(client.segment(2).get, 2, 2)
                refused(lambda: client.segment(2).put(b""), 2, 2)
                refused(lambda: client.wait({2: 1}, timeout=PATIENCE), 2, 2)
                error = raised(lambda: client.wait({0: 1, 1: 7}, timeout=1))
                assert type(error) is snapd_client.WaitTimedOut and error.lagging == {1: 5 - 2 * made}, error
        assert ask(server.address, "put", 0, "yo") == (0, "stored 2\n", "")
        assert ask(server.address, "get", 0) == (0, "segment 0 number 2 value 796f\n", "")
        assert ask(server.address, "get", 2) == ask(server.address, "put", 2, "") == (3, "", "refused 2 NoSegment 2\n")
        told = "segment 0 number 2 fenced 0\nsegment 1 number 4 fenced 0\n"
        assert ask(server.address, "wait", 1000 * PATIENCE, 0, 2, 1, 1) == (0, told, "")
        assert ask(server.address, "wait", 1000, 0, 2, 1, 5) == (1, told, "timed out\n")


# A client that was used before processes are forked off: each updates a segment of its own by it.
FORKED = """
import multiprocessing, sys
from snapd_client import Client

client, count = Client(sys.argv[1], timeout=60), int(sys.argv[2])
client.scan()

def work(segment):
    for number in range(1, count + 1):
        stored = client.update(segment, number, b"value")
        assert stored == number, f"segment {segment}: stored {stored} and not {number}"

workers = [multiprocessing.get_context("fork").Process(target=work, args=(segment,)) for segment in (0, 1)]
for it in workers:
    it.start()
while any(it.is_alive() for it in workers):
    assert len(client.status()) == 2
for it in workers:
    it.join()
assert [it.exitcode for it in workers] == [0, 0]
assert client.scan() == ((count, b"value"), (count, b"value"))
"""


def test_processes_that_are_forked_off_have_connections_of_their_own(snapd, _):
    words = [[sys.executable, "-c", FORKED], [compiled("forks", TOP / "tests")]]
    for words, of_python in zip(words, (True, False)):
        with Server(snapd, *fresh(snapd, 2)) as server:
            address = [server.address] if of_python else server.address.split(":")
            job = subprocess.run(
                [*words, *address, "300"], env=ENVIRONMENT, capture_output=True, text=True, timeout=2 * PATIENCE
            )
            assert (job.returncode, job.stdout, job.stderr) == (0, "", ""), job


# A process that is forked off while a thread of the first one is inside a call.
FORKED_IN_A_CALL = """
import os, socket, sys, threading
from snapd_client import Client

ONE = bytes.fromhex("0000000e8201" + "00" * 12)
listener = socket.create_server(("127.0.0.1", 0))
listener.settimeout(60)
client = Client(listener.getsockname(), timeout=60, tries=1)
call = threading.Thread(target=client.scan)
call.start()
first, _ = listener.accept()
assert len(first.recv(5)) == 5
child = os.fork()
if not child:
    os._exit(len(client.scan()))
second, _ = listener.accept()
assert len(second.recv(5)) == 5
second.sendall(ONE)
assert os.waitpid(child, 0)[1] == 1 << 8
first.sendall(ONE)
call.join()
"""


def test_a_process_that_is_forked_off_waits_for_no_thread_that_it_has_not(snapd, _):
    job = subprocess.run(
        [sys.executable, "-W", "ignore", "-c", FORKED_IN_A_CALL], env=ENVIRONMENT, capture_output=True, text=True,
        timeout=2 * PATIENCE,
    )
    assert (job.returncode, job.stderr) == (0, ""), job


class Restarted:
    """A server at one address that is killed and started again, until the end of a `with`."""

    def __init__(self, snapd, files):
        self.start = lambda address: Server(snapd, *files, address=address, scanners=2)
        self.server = self.start(LOOPBACK)
        self.address = self.server.address

    def kill(self):
        self.server.kill()

    def again(self):
        self.server = self.start(self.address)

    def number(self, segment):
        return self.server.scan()[segment][0]

    def __enter__(self):
        return self

    def __exit__(self, *_):
        self.server.kill()


# What is killed in a life: the job, the server and then the job, and both at once.
LIVES = ("job", "server", "both") * 3


def test_jobs_go_on_where_they_were_while_all_is_killed(snapd, rng):
    """The worker, the server, and both, each time once the job has got on by some steps: each step is stored once, and
    the sums are right."""
    files, steps = fresh(snapd, 2), []
    with Restarted(snapd, files) as server:
        for segment, words in enumerate(jobs(server.address)):
            for killed_one in LIVES:
                number = lambda: server.number(segment)  # noqa: E731
                job = begun(words, NO_END)
                try:
                    assert gets_on(number, rng.randrange(1, 100), lambda: job.poll() is not None), "it gave up"
                    moment(rng)
                    if killed_one != "job":
                        server.kill()
                    if killed_one == "server":
                        server.again()
                        # It continues over a new connection, or has given up after three tries.
                        gets_on(number, rng.randrange(1, 10), lambda: job.poll() is not None)
                finally:
                    kill(job)
                if killed_one == "both":
                    server.again()
            steps.append(number() + 50)
            ends_right(words, steps[segment])
    with Server(snapd, *files) as server:
        assert [number for number, _ in server.scan()] == steps


class Answered:
    """How often a client was answered, and how often its server has been killed, each time after some more answers."""

    def __init__(self):
        self.answers, self.kills, self.is_over = 0, 0, False

    def kill(self, server, rng):
        """Until it is over."""
        while not self.is_over:
            gets_on(lambda: self.answers, rng.randrange(1, 30), lambda: self.is_over)
            moment(rng, 0.005)
            server.kill()
            server.again()
            self.kills += 1


def test_one_client_outlives_many_servers(snapd, rng):
    """A call that was cut off is sent again under its number, and is stored once."""
    files, answered, number = fresh(snapd, 1), Answered(), 0
    with Restarted(snapd, files) as server:
        killing = threading.Thread(target=answered.kill, args=(server, rng))
        killing.start()
        try:
            with Client(server.address, tries=14, pause=0.01) as client:
                while answered.kills < 20:
                    number += 1
                    assert client.update(0, number, b"step %d" % number) == number
                    assert client.scan() == ((number, b"step %d" % number),)
                    answered.answers = number
        finally:
            answered.is_over = True
            killing.join()
    with Server(snapd, *files) as server:
        assert server.scan() == [(number, b"step %d" % number)]


def test_puts_and_waits_outlive_many_servers(snapd, rng):
    """Each value is stored under one number, the next one, however often its put was cut off."""
    for make in BOTH:
        files, answered, number = fresh(snapd, 1), Answered(), 0
        with Restarted(snapd, files) as server:
            killing = threading.Thread(target=answered.kill, args=(server, rng))
            killing.start()
            try:
                with make(server.address, tries=14, pause=0.01) as client:
                    mine = client.segment(0)
                    while answered.kills < 10:
                        number += 1
                        assert mine.put(b"step %d" % number) == number
                        assert client.wait({0: number}, timeout=PATIENCE) == {0: number}
                        assert mine.get() == b"step %d" % number and mine.number == number
                        answered.answers = number
            finally:
                answered.is_over = True
                killing.join()
        with Server(snapd, *files) as server:
            assert server.scan() == [(number, b"step %d" % number)]


def test_readme_of_the_python_client_runs_on_the_server(snapd, _):
    text = (TOP / "clients" / "python" / "README.md").read_text()
    listing = re.search(r"```python\n(.*?)```", text, re.DOTALL).group(1)
    with Server(snapd, *fresh(snapd, 1)) as server:
        run = subprocess.run([sys.executable, "-c", listing.replace("127.0.0.1:7070", server.address)],
                             capture_output=True, text=True, env=ENVIRONMENT)
        assert (run.returncode, run.stdout, run.stderr) == (0, "1 False\n", "")
        assert server.scan() == [(1, b"17")]


def test_head_of_the_c_client_runs_on_the_server(snapd, _):
    """The use that the header's first comment shows, with a number looked at in place of `...`."""
    head = (TOP / "clients" / "c" / "snapd.h").read_text().partition("*/")[0]
    lines = [line.removeprefix(" *").strip() for line in head.splitlines() if line.startswith(" *     ")]
    declared, used = lines[2], lines[3:]
    assert lines[0].startswith("#define _POSIX_C_SOURCE") and lines[1] == '#include "snapd.h"' and len(used) == 7, lines
    source = "\n".join([lines[0], lines[1], declared, "int main(void) {", *used, "return stored == 1 ? 0 : 1; }", ""])
    with Server(snapd, *fresh(snapd, 1)) as server:
        port = server.address.split(":")[1]
        path = snapd.folder / "head.c"
        path.write_text(
            source.replace("7070", port).replace("...", "(void)0;").replace("uint64_t stored;", "uint64_t stored = 0;")
        )
        words = [
            "gcc", "-std=c99", "-Wall", "-Wextra", "-Werror", "-I", TOP / "clients" / "c", "-o", snapd.folder / "head",
            path,
        ]
        subprocess.run(words, check=True)
        assert subprocess.run([snapd.folder / "head"], timeout=PATIENCE).returncode == 0
        assert server.scan() == [(1, b"step 17")]
