"""Every listing of docs/RECIPES.md, run unchanged: on real files, with kills of the jobs and of the server. Those of
docs/REPLICATION.md are run by bench/replicated.py, which wants root."""

import json
import os
import pathlib
import re
import shutil
import signal
import subprocess
import sys
import threading
import time

import segment_file as layout
from clients import Client, oracle
from serving import Server, fresh, segments, stored, update
from waiting import NO_END, PATIENCE, comes_to, gets_on, moment, wait_until

from snapd_client import Conflict, OutOfStep

TOP = pathlib.Path(__file__).resolve().parent.parent
RECIPES, REPLICATION = ((TOP / "docs" / name).read_text() for name in ("RECIPES.md", "REPLICATION.md"))


def listings(document):
    """Each listing by the name in its comment on the first line, or after its `#!`."""
    found = re.findall(r"^```\w+\n((?:#![^\n]*\n)?# (\S+?):?(?: [^\n]*)?\n.*?)^```$", document, re.S | re.M)
    return {pathlib.Path(name).name: text for text, name in found}


LISTINGS = {**listings(RECIPES), **listings(REPLICATION)}


def test_every_listing_is_known(_, __):
    names = {
        RECIPES: [
            "backup.sh", "board.py", "checkpoint.py", "grow.sh", "job.sh", "launch.sh", "lease.py", "override.conf",
        ],
        REPLICATION: ["files.sh", "fstab", "snapd-board-takeover.service", "takeover.py", "volume.sh"],
    }
    for document, wanted in names.items():
        assert sorted(listings(document)) == wanted
        assert len(re.findall(r"^```\w+$", document, re.M)) == len(wanted)
    assert len(LISTINGS) == sum(map(len, names.values()))


def written(snapd, *names):
    for name in names:
        (snapd.folder / name).write_text(LISTINGS[name])


def written_with(snapd, name, old, new):
    """The listing with another number in one place, so that a test takes less time."""
    assert LISTINGS[name].count(old) == 1, (name, old)
    (snapd.folder / name).write_text(LISTINGS[name].replace(old, new))


def environment(snapd, more):
    """With the program, the client and this Python on the paths, and with more."""
    (snapd.folder / "bin").mkdir(exist_ok=True)
    for name, path in (("snapd", snapd.path), ("python3", sys.executable)):
        if not (snapd.folder / "bin" / name).exists():
            (snapd.folder / "bin" / name).symlink_to(path)
    return {**os.environ, "PATH": f"{snapd.folder / 'bin'}:{os.environ['PATH']}",
            "PYTHONPATH": str(TOP / "clients" / "python"), "PYTHONDONTWRITEBYTECODE": "1", **more}


def started(snapd, *words, env=(), **more):
    """A process group of its own, so that it can be killed with all that it started."""
    return subprocess.Popen(list(map(str, words)), cwd=snapd.folder, env=environment(snapd, dict(env)), text=True,
                            start_new_session=True, stdin=subprocess.DEVNULL, stdout=subprocess.PIPE, **more)


def ended(snapd, *words):
    """The status of a process that ends by itself, what it printed, and what it said on standard error."""
    process = started(snapd, *words, stderr=subprocess.PIPE)
    try:
        output, errors = process.communicate(timeout=PATIENCE)
    finally:
        killed(process)
    return process.returncode, output, errors


def killed(process):
    try:
        os.killpg(process.pid, signal.SIGKILL)
    except ProcessLookupError:
        pass
    return process.communicate()[0]


# ---- the job without a server ----

STATE = "state/segment-00.seg"


def steps_of_job(snapd):
    """What `job.sh` runs for each of its steps, and a function that returns the steps which were done."""
    step, log = snapd.file("do_step"), snapd.file("steps")
    step.write_text('#!/bin/sh\necho "$1" >> steps\n')
    step.chmod(0o755)
    return lambda: [int(it) for it in log.read_text().split()] if log.exists() else []


def test_a_job_goes_on_after_kills(snapd, rng):
    """Each step is done after the one before it; one in which the job was killed is done again."""
    steps, lives = steps_of_job(snapd), 8
    written_with(snapd, "job.sh", "-lt 100", f"-lt {NO_END}")
    for _ in range(lives):
        job = started(snapd, "sh", "job.sh")
        try:
            gets_on(lambda: len(steps()), rng.randrange(1, 6))
            moment(rng)
        finally:
            killed(job)
    last = steps()[-1] + 5
    written_with(snapd, "job.sh", "-lt 100", f"-lt {last}")
    status, _, errors = ended(snapd, "sh", "job.sh")
    assert (status, errors) == (0, ""), (status, errors)
    done = steps()
    assert (done[0], done[-1]) == (1, last) and len(done) - last <= lives, done
    assert all(after - before in (0, 1) for before, after in zip(done, done[1:])), done
    snapd("get", STATE).gave(0, str(last))


def test_a_job_leaves_a_damaged_file(snapd, _):
    """One that lost its header and holds a value, one that was cut, and one whose slots give no answer: no step is
    done, and each keeps its bytes."""
    steps = steps_of_job(snapd)
    written(snapd, "job.sh")
    snapd("init", "state").gave(0, "formatted 0 of 1\n")
    whole = layout.holding((16, b"16"), (17, b"17"))
    bare = bytearray(whole)
    bare[layout.HEADER_GATE] = 0
    for data, number, said in (
        (bytes(bare), 11, "keep a copy first"), (whole[:-1], 14, f"{layout.LENGTH - 1} bytes"),
        (layout.holding((4, b"4"), (6, b"6")), 12, f"see snapd check {STATE}"),
    ):
        snapd.file(STATE).write_bytes(data)
        status, output, errors = ended(snapd, "sh", "job.sh")
        assert (status, output) == (3, "") and errors.startswith(f"snapd: refused {number} "), (status, output, errors)
        assert said in errors and snapd.file(STATE).read_bytes() == data and not steps(), errors


# ---- a copy of everything ----

def test_backups_are_kept_and_restored(snapd, _):
    written_with(snapd, "backup.sh", "--wait 30", "--wait 1")
    (snapd.folder / "dumps").mkdir()
    with Server(snapd, *fresh(snapd, 3)) as server:
        for number in range(1, 5):
            server.ask(update(1, number, b"%d" % number), stored(number))
            done = started(snapd, "sh", "backup.sh", server.address, "dumps", 2)
            assert (done.communicate()[0], done.returncode) == ("", 0)
            time.sleep(1.1)
    kept = sorted((snapd.folder / "dumps").iterdir())
    assert len(kept) == 2 and all(it.suffix == ".dump" for it in kept), kept
    for number, dump in zip((3, 4), kept):
        snapd("load", f"board{number}", dump).gave(
            0, f"loaded 0 of 3 number 0\nloaded 1 of 3 number {number}\nloaded 2 of 3 number 0\nready board{number}\n")
        with Server(snapd, "--dir", f"board{number}") as server:
            assert server.scan() == [(0, b""), (number, b"%d" % number), (0, b"")]
    # Without a server there is no dump and no part of one, and none of the old ones is removed.
    status, output, errors = ended(snapd, "sh", "backup.sh", "127.0.0.1:1", "dumps", 1)
    assert (
        (status, output) == (1, "")
        and errors.startswith("snapd: 127.0.0.1:1: ")
        and sorted((snapd.folder / "dumps").iterdir()) == kept
    ), errors


def test_a_job_grows(snapd, _):
    written(snapd, "grow.sh")
    snapd("init", "board", "--count", 2)
    snapd("put", "board/segment-01.seg", "--index", 1, "--count", 2, stdin="hi").gave(0, "stored 1\n")
    done = started(snapd, "sh", "grow.sh", "board", 4)
    lines = "".join(f"loaded {index} of 4 number {int(index == 1)}\n" for index in range(4))
    assert (done.communicate()[0], done.returncode) == (lines + "ready board.new\n", 0)
    with Server(snapd, "--dir", "board") as server:
        assert server.scan() == [(0, b""), (1, b"hi"), (0, b""), (0, b"")]
    with Server(snapd, "--dir", "board.old") as server:
        assert server.scan() == [(0, b""), (1, b"hi")]


def test_a_job_that_cannot_grow_stays(snapd, _):
    """Its folder is served, or one of the old name is there: each folder has what it had,
    and nothing is left beside."""
    written(snapd, "grow.sh")
    snapd("init", "board", "--count", 2)
    with Server(snapd, "--dir", "board"):
        status, output, errors = ended(snapd, "sh", "grow.sh", "board", 4)
        assert (status, output) == (1, "") and "in use by another snapd" in errors, (status, errors)
    snapd.file("board.old").mkdir()
    assert ended(snapd, "sh", "grow.sh", "board", 4) == (1, "", "grow.sh: board.old is there already: move it away\n")
    assert sorted(it.name for it in snapd.folder.iterdir() if it.name.startswith("board")) == ["board", "board.old"]
    assert sorted(it.name for it in snapd.file("board").iterdir()) == ["segment-00.seg", "segment-01.seg"]


# ---- three hosts ----

def test_hosts_begin_nothing_where_something_is_missing(snapd, _):
    """No folder of a volume, no tools of one, and no file to lock: each ends, and leaves nothing."""
    written(snapd, "files.sh", "volume.sh", "takeover.py")
    before = sorted(snapd.folder.iterdir())
    if not os.path.exists("/srv/snapd"):
        assert ended(snapd, "sh", "files.sh")[0] != 0
    if not shutil.which("gluster"):
        assert ended(snapd, "sh", "volume.sh", "127.0.0.1", "127.0.0.1", "127.0.0.1")[0] == 127
    status, _, errors = ended(snapd, "python3", "takeover.py", "10.77.0.10/24", "none", 7070, "s0.seg")
    assert status == 1 and "serving" in errors.splitlines()[-1], (status, errors)
    assert sorted(it for it in snapd.folder.iterdir() if it.name != "bin") == before


# ---- the checkpoints ----

RANKS = 4
# What is killed in a life: the ranks, the server and then the ranks, both at once, and the ranks while they start.
LIVES = ("ranks", "server", "both", "start") * 3


def newest_step(server):
    """The newest step that a rank has saved."""
    return max((it["step"] for _, value in server.scan()[:RANKS] for it in json.loads(value or b"[]")), default=0)


def test_checkpoints_survive_kills_of_all(snapd, rng):
    """Ranks and server are killed again and again, together or alone, at moments that follow from how far the job is.
    At the end each rank has the sum of all its steps."""
    written(snapd, "checkpoint.py", "launch.sh")
    # The last segment is another job's.
    files = segments(snapd, *[[(0, b"")]] * RANKS, [(0, b""), (1, b"other")])
    server = Server(snapd, *files, scanners=2)
    place = server.address

    def launched(steps):
        return started(snapd, "sh", "launch.sh", place, RANKS, steps, stderr=subprocess.DEVNULL)

    try:
        for killed_one in LIVES:
            job = launched(NO_END)
            try:
                if killed_one != "start":
                    gets_on(lambda: newest_step(server), rng.randrange(1, 6))
                moment(rng, 0.3 if killed_one == "start" else 0.02)
                if killed_one == "server":
                    # The ranks go on by themselves, over new connections.
                    server.kill()
                    moment(rng)
                    server = Server(snapd, *files, scanners=2, address=place)
                    gets_on(lambda: newest_step(server), 2)
                elif killed_one == "both":
                    server.kill()
            finally:
                killed(job)
            if killed_one == "both":
                server = Server(snapd, *files, scanners=2, address=place)
        steps = newest_step(server) + 10
        job = launched(steps)
        try:
            output, _ = job.communicate(timeout=10 * PATIENCE)
        finally:
            killed(job)
        total = steps * (steps + 1) // 2
        assert sorted(output.splitlines()) == [f"{rank} {(rank + 1) * total}" for rank in range(RANKS)], output
        for rank in range(RANKS):
            assert list(snapd.folder.glob(f"rank{rank}.step{steps}.*")), "the last checkpoint is gone"
    finally:
        server.kill()


def test_ranks_that_cannot_go_on_say_so(snapd, _):
    """One of two ranks can't save, a rank is alone, and a server has too few segments: no rank waits for ever, and the
    job has failed."""
    written_with(snapd, "checkpoint.py", "PATIENCE = 600", "PATIENCE = 1")
    written(snapd, "launch.sh")
    with Server(snapd, *fresh(snapd, 2)) as server:
        alone = ended(snapd, "python3", "checkpoint.py", server.address, 2, 0, 3, 0)
        assert alone == (1, "", "ranks [1] haven't saved step 1 for 1 s\n"), alone
        few = ended(snapd, "sh", "launch.sh", server.address, 3, 3)
        assert few == (1, "", "the server has 2 segments, and 3 ranks want one each\n"), few
    with Server(snapd, *fresh(snapd, 2)) as server:
        snapd.file("rank1.step1.1.part").mkdir()
        status, output, errors = ended(snapd, "sh", "launch.sh", server.address, 2, 3)
        assert (
            (status, output) == (1, "") and "IsADirectoryError" in errors and "ranks [1] haven't saved step 1" in errors
        ), (status, output, errors)


# ---- the board ----

class Board:
    """A monitor, and all that it has printed so far."""

    def __init__(self, snapd, address, patience):
        written(snapd, "board.py")
        self.process = started(snapd, sys.executable, "board.py", address, patience)
        self.printed, self.wanted = [], []
        self.listener = threading.Thread(target=self.listen, daemon=True)
        self.listener.start()

    def listen(self):
        for line in self.process.stdout:
            self.printed.append(line)

    def prints(self, *lines):
        """Waits for these lines of one scan, right after all earlier ones."""
        self.wanted += [f"{line}\n" for line in (*lines, "")]
        comes_to(self.wanted, lambda: self.printed[: len(self.wanted)])

    def __enter__(self):
        return self

    def __exit__(self, *_):
        self.process.kill()
        self.process.wait()
        self.listener.join()


def test_board_shows_what_all_said(snapd, _):
    files = fresh(snapd, 2)
    server = Server(snapd, *files)
    try:
        with Board(snapd, server.address, 0.5) as board:
            board.prints("0 0 ", "1 0 ")
            board.prints("0 0  *", "1 0  *")
            # One changes and rests again. The other one doesn't change, and isn't printed.
            server.ask(update(1, 1, b"step 1"), stored(1))
            board.prints("1 1 step 1")
            board.prints("1 1 step 1 *")
            # The monitor continues by itself, over a new connection.
            server.kill()
            server = Server(snapd, *files, address=server.address)
            server.ask(update(0, 1, b"\xff"), stored(1))
            board.prints("0 1 \N{REPLACEMENT CHARACTER}")
            board.prints("0 1 \N{REPLACEMENT CHARACTER} *")
        assert board.printed == board.wanted
    finally:
        server.kill()


def test_board_ends_where_nobody_answers(snapd, _):
    written_with(snapd, "board.py", "tries=10", "tries=1")
    status, output, errors = ended(snapd, "python3", "board.py", "127.0.0.1:1", 1)
    assert (status, output) == (1, "") and "127.0.0.1:1" in errors.splitlines()[-1], (status, output, errors)


def test_board_prints_nothing_while_nothing_changes(snapd, _):
    """The server in plain Python counts how often it has been asked. Between two groups of lines the monitor keeps
    polling."""
    model = oracle.Model(3)
    with oracle.Server(model) as server, Client(server.address) as client, Board(snapd, server.address, 0.3) as board:
        def is_quiet():
            gets_on(lambda: model.answered, 6)
            assert board.printed == board.wanted

        board.prints("0 0 ", "1 0 ", "2 0 ")
        board.prints("0 0  *", "1 0  *", "2 0  *")
        is_quiet()
        for number in (1, 2):
            client.update(1, number, b"step")
            board.prints(f"1 {number} step")
            board.prints(f"1 {number} step *")
            is_quiet()


# ---- the lease ----

class Holders:
    """Three processes that wait for a lease, and the tokens that they and the ones before them have printed."""

    def __init__(self, snapd, address):
        self.words = snapd, sys.executable, "lease.py", address, 0, LEASE
        self.errors = snapd.file("errors")
        self.standing, self.tokens, self.count = [], [], 0

    def stand_by(self):
        """Another one comes for each that was killed."""
        while len(self.standing) < 3:
            with open(self.errors, "ab") as errors:
                holder = started(*self.words, stderr=errors)
            listener = threading.Thread(target=self.listen, args=(holder,), daemon=True)
            listener.start()
            self.standing.append((holder, listener))
            self.count += 1

    def listen(self, holder):
        for line in holder.stdout:
            self.tokens.append((int(line.split()[1]), holder.pid))

    def wait_for(self, more):
        wanted = len(self.tokens) + more

        def have_come():
            self.stand_by()
            return len(self.tokens) >= wanted

        wait_until(have_come, "a token")

    def kill_the_last(self):
        """Kills the one that had the lease last. All that it printed is known then."""
        last = self.tokens[-1][1]
        self.kill(next(pair for pair in self.standing if pair[0].pid == last))

    def kill(self, pair):
        holder, listener = pair
        self.standing.remove(pair)
        holder.kill()
        holder.wait()
        listener.join()


# How long a lease holds, in seconds, and how often its holder is killed.
LEASE, TAKEOVERS = 1.2, 6


def test_lease_has_one_holder_and_growing_tokens(snapd, rng):
    """Holders are killed once they have printed a token, and others take over. All printed tokens differ, and each is
    the number of its own update."""
    written(snapd, "lease.py")
    file, = fresh(snapd, 1)
    with Server(snapd, file) as server:
        holders = Holders(snapd, server.address)
        try:
            for _ in range(TAKEOVERS):
                holders.wait_for(rng.randrange(1, 4))
                moment(rng, LEASE / 2)
                holders.kill_the_last()
        finally:
            while holders.standing:
                holders.kill(holders.standing[0])
        (number, _), = server.scan()
    said = [token for token, _ in holders.tokens]
    assert len(said) == len(set(said)) and len(said) >= TAKEOVERS, said
    for one in {pid for _, pid in holders.tokens}:
        mine = [token for token, pid in holders.tokens if pid == one]
        assert mine == sorted(mine), mine
    # The last holder that printed a token had never been killed before.
    assert len({pid for _, pid in holders.tokens}) >= TAKEOVERS, holders.tokens
    # What a holder stored and could not print before it was killed is missing, or what had no answer in time: it says
    # so. Nothing else is.
    unanswered = holders.errors.read_text().splitlines()
    assert all(it.startswith("lease.py: ") and "no answer after 2 tries" in it for it in unanswered), unanswered
    assert max(said) <= number and number - len(said) <= holders.count + len(unanswered), (number, said)


def test_lease_is_kept_over_a_restart_of_the_server(snapd, _):
    """The holder says that it has no answer, and tries again until there is one."""
    written(snapd, "lease.py")
    files = fresh(snapd, 1)
    server = Server(snapd, *files)
    holder = started(snapd, sys.executable, "lease.py", server.address, 0, 2, stderr=subprocess.PIPE)
    try:
        assert holder.stdout.readline() == "token 1\n"
        server.kill()
        for _ in range(2):
            said = holder.stderr.readline()
            assert said.startswith(f"lease.py: {server.address}: no answer after 2 tries: "), said
        server = Server(snapd, *files, address=server.address)
        (number, _), = server.scan()
        # Each token is greater than the one before, and this one is of an update after the restart.
        while (line := holder.stdout.readline()) and int(line.split()[1]) <= number:
            pass
        assert line and holder.poll() is None, holder.stderr.read()
    finally:
        killed(holder)
        server.kill()


# What no lease is: bytes, texts, and what JSON says of other jobs.
NO_LEASES = (
    b"step 17", b"\xff\xfe\xfd", b"\0", b"17", b"null", b'"holder"', b"[" * 4_080,
    b'[{"step": 2, "name": "rank0.step2.2"}]', b"{}",
    b'{"holder": "a"}', b'{"holder": "a", "until": "noon"}', b'{"holder": "a", "until": null}',
    b'{"holder": "a", "until": 0, "step": 2}',
)


def refuses_to_lease(lease, server, segment, value):
    """Ends by itself where it meets another job's value, and says so.
    The words of the command that it names as the remedy."""
    try:
        output, errors = lease.communicate(timeout=PATIENCE)
    finally:
        killed(lease)
    assert (lease.returncode, output) == (4, ""), (segment, lease.returncode, output, errors)
    said, _, command = errors.rpartition(": snapd ")
    assert said == (
        f"lease.py: segment {segment} of {server.address} holds {value[:40]!r}, which is no lease: "
        "nothing was changed. Name another segment; or, if no job needs this value, empty it"
    ), errors
    return command.split()


def test_lease_leaves_what_is_no_lease(snapd, _):
    """Whatever another job has stored stays, before there is a lease and while somebody holds it.
    An emptied segment is free."""
    written(snapd, "lease.py")

    def begun(segment, seconds):
        return started(snapd, sys.executable, "lease.py", server.address, segment, seconds, stderr=subprocess.PIPE)

    with Server(snapd, *segments(snapd, *[[(0, b""), (1, value)] for value in NO_LEASES])) as server:
        for segment, value in enumerate(NO_LEASES):
            # It waits for an answer for a third of its seconds, and polls again after a quarter.
            remedy = refuses_to_lease(begun(segment, 3 * PATIENCE), server, segment, value)
        assert server.scan() == [(1, value) for value in NO_LEASES]
        assert remedy == ["call", server.address, "update", str(segment), "2", "-"]
        snapd(*remedy).gave(0, "stored 2\n")
        holder = begun(segment, 8)
        try:
            assert holder.stdout.readline() == "token 3\n"
            with Client(server.address) as client:
                wait_until(lambda: stores(client, segment, b"step 18"), "another job's update")
                number = client.scan()[segment].number
                while (line := holder.stdout.readline()):
                    assert line.startswith("token ") and int(line.split()[1]) < number, (line, number)
                remedy = refuses_to_lease(holder, server, segment, b"step 18")
                assert remedy[-2:] == [str(number + 1), "-"] and client.scan()[segment] == (number, b"step 18")
        finally:
            killed(holder)


def stores(client, segment, value):
    """Stores the value, unless another process stored in between."""
    try:
        return client.update(segment, client.scan()[segment].number + 1, value)
    except (Conflict, OutOfStep):
        return False


# ---- the refusals ----

def test_each_refusal_has_its_row(_, __):
    wanted = re.findall(r"^\| (\d+) \| ([A-Z]\w+) \|", (TOP / "docs" / "FORMATS.md").read_text(), re.M)
    assert wanted == re.findall(r"^\| (\d+) \| ([A-Z]\w+) \|", RECIPES, re.M) and len(wanted) == 17
