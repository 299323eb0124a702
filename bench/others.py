"""Times durable updates of snapd beside those of redis, etcd, PostgreSQL and SQLite, as far as they are installed.

    python3 bench/others.py [--folder FOLDER] [--rounds N] [--program bin/snapd] [--flushes US..] [--json FILE]

1, 4 and 16 writers, each on a connection of its own, update a value of 1,024 bytes under their own key, and wait until
it is on the disk. In a round all servers do the same half second of work in turn. The others run as Debian installs
them, with an empty folder in FOLDER: redis with `appendonly` and `appendfsync always`, and no snapshots; etcd as one
member; PostgreSQL without a password; SQLite with a write-ahead log and `synchronous=FULL`, in the process of its
writers, which take its one connection in turn. A flush takes as long as the disk needs, and then 1 ms at least: by
`flush.c`, and with etcd, which calls the system itself, by strace. Printed and noted are the median of an update's
time, that divided by snapd's, updates a second, and the processor's time of an update: the server's, with SQLite that
of its process. Last are scans of all 16 values on the disk as it is, beside none and 16 writers, by MGET of redis.
"""

import argparse
import contextlib
import os
import pathlib
import pwd
import resource
import shutil
import socket
import subprocess
import sys
import tempfile
import time

TOP = pathlib.Path(__file__).resolve().parent.parent
sys.dont_write_bytecode = True
sys.path.insert(0, str(TOP / "tests"))

import figures  # noqa: E402
from compare import processor_time  # noqa: E402
from server import SEGMENTS, SPAN, Bench, ratio  # noqa: E402
from serving import Server  # noqa: E402

LENGTH, WRITERS, OWN = 1_024, (1, 4, 16), "the disk's own flush"
# What strace adds to a flush of its own accord, in microseconds.
TRACING = 60
TICK = os.sysconf("SC_CLK_TCK")
POSTGRES = sorted(pathlib.Path("/usr/lib/postgresql").glob("*/bin/postgres"))


def free_port():
    with socket.create_server(("127.0.0.1", 0)) as listener:
        return listener.getsockname()[1]


def children(process):
    """The processes below this one, of any depth."""
    try:
        listed = pathlib.Path(f"/proc/{process}/task/{process}/children").read_text().split()
    except FileNotFoundError:
        return []
    return [int(it) for it in listed] + [below for it in listed for below in children(it)]


def spent(process):
    """Microseconds of a processor so far, and 0 of a process that has just ended."""
    with contextlib.suppress(FileNotFoundError, ProcessLookupError):
        return processor_time(process)
    return 0


class Other:
    """A server that was started in a folder of its own; killed at the end of a `with`."""

    kind, wanted, package, words = "", None, "", ()

    def __init__(self, folder, flush):
        self.folder, self.flush = folder, flush
        self.place = ("127.0.0.1", free_port())
        folder.mkdir()

    @classmethod
    def is_installed(cls):
        return shutil.which(cls.wanted) is not None

    def slowed(self, words):
        """The words, and the environment, of a server whose flushes take longer."""
        return words, {"LD_PRELOAD": str(self.folder.parent / "flush.so"), "FLUSH_US": str(self.flush)}

    def __enter__(self):
        words, env = self.slowed(self.started_by()) if self.flush else (self.started_by(), {})
        log = open(self.folder.parent / f"{self.kind}.log", "wb")
        self.process = subprocess.Popen(list(map(str, words)), stdout=log, stderr=log, env={**os.environ, **env})
        for _ in range(1_000):
            with contextlib.suppress(OSError):
                socket.create_connection(self.place).close()
                break
            time.sleep(0.01)
        self.prepare()
        return self

    def started_by(self):
        raise NotImplementedError

    def prepare(self):
        pass

    def serving(self):
        """The processes that do the work."""
        return [self.process.pid, *children(self.process.pid)]

    def processor(self):
        """Microseconds of a processor so far; those of children that have ended are known to the tick."""
        ended = pathlib.Path(f"/proc/{self.process.pid}/stat").read_text().rpartition(")")[2].split()[13:15]
        return sum(map(spent, self.serving())) + sum(map(int, ended)) / TICK * 1e6

    def __exit__(self, *_):
        for it in reversed(self.serving()):
            with contextlib.suppress(ProcessLookupError):
                os.kill(it, 9)
        self.process.wait()


class Redis(Other):
    kind = wanted = "redis"
    wanted, package = "redis-server", "redis-server"

    def started_by(self):
        return ["redis-server", "--bind", self.place[0], "--port", self.place[1], "--dir", self.folder, "--save", "",
                "--appendonly", "yes", "--appendfsync", "always"]


class Etcd(Other):
    kind = wanted = "etcd"
    package = "etcd-server strace"

    @classmethod
    def is_installed(cls):
        return super().is_installed() and shutil.which("strace") is not None

    def started_by(self):
        client, peer = (f"http://127.0.0.1:{port}" for port in (self.place[1], free_port()))
        words = [word for prefix in ("listen", "advertise") for word in (f"--{prefix}-client-urls", client)]
        words += [word for prefix in ("listen", "initial-advertise") for word in (f"--{prefix}-peer-urls", peer)]
        return ["etcd", "--data-dir", self.folder, *words, "--initial-cluster", f"default={peer}"]

    def slowed(self, words):
        delay = f"inject=fsync,fdatasync:delay_exit={self.flush - TRACING}"
        strace = ["strace", "-f", "--seccomp-bpf", "-qq", "-o", "/dev/null", "-e", "trace=fsync,fdatasync", "-e", delay]
        return [*strace, *words], {}

    def serving(self):
        return children(self.process.pid) if self.flush else [self.process.pid]


class Postgres(Other):
    """It doesn't run as root, so its folder is its user's."""

    kind, package = "postgres", "postgresql"

    @classmethod
    def is_installed(cls):
        return bool(POSTGRES)

    def as_its_user(self, *words):
        user = ["setpriv", "--reuid=postgres", "--regid=postgres", "--clear-groups"] if os.geteuid() == 0 else []
        return [*user, *words]

    def started_by(self):
        if os.geteuid() == 0:
            os.chown(self.folder, *pwd.getpwnam("postgres")[2:4])
        initdb = [POSTGRES[-1].with_name("initdb"), "-D", self.folder, "-U", "postgres", "--auth=trust", "-E", "UTF8"]
        subprocess.run(self.as_its_user(*initdb), check=True, stdout=subprocess.DEVNULL, stderr=subprocess.DEVNULL)
        place = ["-p", self.place[1], "-h", self.place[0], "-k", self.folder]
        return self.as_its_user(POSTGRES[-1], "-D", self.folder, *place)

    def prepare(self):
        rows = f"INSERT INTO kept SELECT it, '' FROM generate_series(0, {SEGMENTS - 1}) it"
        words = [POSTGRES[-1].with_name("psql"), "-q", "-h", self.place[0], "-p", self.place[1], "-U", "postgres",
                 "-c", "CREATE TABLE kept (segment int PRIMARY KEY, value bytea)", "-c", rows]
        for _ in range(100):
            if subprocess.run(list(map(str, words)), stderr=subprocess.DEVNULL).returncode == 0:
                return
            time.sleep(0.1)
        raise RuntimeError("PostgreSQL doesn't answer")

    def processor(self):
        # By then the processes of connections that were closed have ended, and count.
        time.sleep(0.1)
        return super().processor()


class Sqlite(Other):
    """A library: the writers' own process is the server."""

    kind, wanted, package = "sqlite", "sqlite3", "sqlite3"

    def __enter__(self):
        self.place = ("", self.folder / "kept.db")
        return self

    def __exit__(self, *_):
        pass

    def processor(self):
        used = resource.getrusage(resource.RUSAGE_CHILDREN)
        return (used.ru_utime + used.ru_stime) * 1e6


OTHERS = (Redis, Etcd, Postgres, Sqlite)
NAMES = {"snapd": "snapd", "redis": "redis", "etcd": "etcd", "postgres": "PostgreSQL", "sqlite": "SQLite"}


class Beside(Bench):
    """All of them, each asked in turn."""

    def snapd_server(self, flush):
        files = self.files(f"files-{flush}", LENGTH)
        env = {"LD_PRELOAD": str(self.folder / "flush.so"), "FLUSH_US": str(flush)} if flush else {}
        return Server(self.snapd, *files, scanners=4, env=env)

    def processor(self, it):
        return it.processor() if isinstance(it, Other) else processor_time(it.process.pid)

    def own_flush(self):
        """How long the disk takes to flush a block of a file that doesn't grow."""
        file, times = os.open(self.folder / "flushed", os.O_RDWR | os.O_CREAT), []
        os.pwrite(file, bytes(8 * 4_096), 0)
        os.fsync(file)
        for turn in range(300):
            os.pwrite(file, bytes([turn % 256]) * 4_096, 0)
            began = time.perf_counter()
            os.fdatasync(file)
            times.append((time.perf_counter() - began) * 1e6)
        os.close(file)
        print(f"{OWN}: {self.figures.note(OWN, 'disk', times):.1f} us")

    def asked(self, kind, it, writers, env):
        """An update's median, updates a second, and an update's time of a processor."""
        before = self.processor(it)
        rate, median, _ = self.load(it, LENGTH, writers, 0, kind, env=env if kind == "sqlite" else None)[0]
        return median, rate, (self.processor(it) - before) / (rate * SPAN / 1e3)

    def run(self, flush):
        """One table: of a disk as it is, or with a flush of so many microseconds."""
        disk = f"a flush of {flush / 1e3:g} ms" if flush else OWN
        if not flush:
            self.own_flush()
        installed = [it for it in OTHERS if it.is_installed()]
        for it in OTHERS:
            if it not in installed:
                print(f"beside {NAMES[it.kind]}: skipped, it isn't installed (apt-get install {it.package})")
        with contextlib.ExitStack() as stack:
            servers = {"snapd": stack.enter_context(self.snapd_server(flush))}
            for it in installed:
                servers[it.kind] = stack.enter_context(it(self.folder / f"{it.kind}-{flush}", flush))
            env = {"LD_PRELOAD": str(self.folder / "flush.so"), "FLUSH_US": str(flush)} if flush else {}
            for writers in WRITERS:
                found = {kind: [] for kind in servers}
                for turn in range(self.rounds + 1):
                    for kind, it in servers.items():
                        found[kind].append(self.asked(kind, it, writers, env))
                # The first round warms up.
                found = {NAMES[kind]: [*zip(*rows[1:])] for kind, rows in found.items()}
                self.told(f"{writers} writer{'s' * (writers > 1)}, {disk}", found)
            if "redis" in servers and not flush:
                self.scans(servers)

    def told(self, label, found):
        for of, (median, rate, processor) in found.items():
            times = [its / mine for its, mine in zip(median, found["snapd"][0])]
            times = self.figures.note(f"update, {label}", f"{of}, divided by snapd", times, "ratio")
            mine = self.figures.note(f"update, {label}", of, median)
            rate = self.figures.note(f"updates, {label}", of, rate, "a second")
            processor = self.figures.note(f"processor of an update, {label}", of, processor)
            print(f"{label:<36} {of:<11} {mine:>9,.1f} us {times:>7.2f}   {rate:>9,.0f} a second   "
                  f"{processor:>8,.1f} us of a processor", flush=True)

    def scans(self, servers):
        for writers in (0, SEGMENTS):
            found = {"snapd": [], "redis": []}
            for _ in range(self.rounds):
                for kind, rows in found.items():
                    rows.append(self.load(servers[kind], LENGTH, writers, 1, kind)[1][1])
            self.show(f"scan of 16 values beside {writers} writers", found, "us", f"{ratio(*found.values()):.3f}")


def main():
    words = figures.arguments(argparse.ArgumentParser(description="Times durable updates of snapd and of others."))
    words.add_argument("--folder")
    words.add_argument("--rounds", type=int, default=5)
    words.add_argument("--program", default=str(TOP / "bin" / "snapd"))
    words.add_argument("--flushes", type=int, nargs="*", default=[0, 1_000], metavar="US")
    words = words.parse_args()
    with tempfile.TemporaryDirectory(prefix="bench-", dir=words.folder or TOP) as folder:
        folder = pathlib.Path(folder).resolve()
        folder.chmod(0o755)
        bench = Beside(folder, words.program, words.rounds)
        bench.preloaded("flush")
        for it in words.flushes:
            bench.run(it)
        bench.figures.write(words.json, folder, words.program)


if __name__ == "__main__":
    main()
