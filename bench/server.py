"""Times `snapd serve` beside as little of a server as does the same work (`echo.c`), as ratios, in one run.

    python3 bench/server.py [--folder FOLDER] [--rounds N] [--program bin/snapd] [--only PART] [--flush US]
                            [--json FILE]

PART is one of `updates`, `crowds`, `scans`, `parts`, `starts`, `told`, `comers`, `memory`, `held`, `beside`, `stages`
and `openings`, by default all of them in this order.
Each figure is the median of the ratios of some rounds; in a round all that is compared runs in turn, for half a second
each. The files lie in FOLDER, by default a fresh folder beside this repository's own files, so that they are on a disk
and not in memory.

An update is compared with its device calls alone (aim 1.1), and with the yardstick, which makes the same calls for a
client on a socket (aim 1.3); updates a second of 1 and 16 writers with bare calls (aim 0.8). Updates of 1, 4 and 16
writers, with their processor time, and scans are compared with the yardstick's, also where a flush takes US
microseconds at least. A scan is compared with the yardstick's reply of the same size (aim 1.5), alone and beside 16
writers, and with a yardstick that copies what was stored last; a scan of 1, 4 and 16 named segments of 16 with a whole
one of a server that has as many (aim 1.15); the time to the line `listening` with 16 files, with their bare opening
(aim 20 ms more), beside the time to write as much memory and to copy it, and the same with the C library's settings of
docs/RECIPES.md.

An update of one writer beside connections that come and go, 12,600 a second and as fast as a thread can make them, is
compared with the same while it is quiet (aim 300 us).

Then come the memory resident, with 2,000 idle connections too, and a scan on one worker beside stores that are held 2
ms at each sync, which is to take as long as without them; the yardstick's scans have a thread of their own. The last
three are what docs/figures shows: scans beside 0 to 16 writers, where an update's time goes, and starts of 1 to 16
files.
"""

import argparse
import os
import pathlib
import statistics
import struct
import subprocess
import sys
import tempfile
import time

TOP = pathlib.Path(__file__).resolve().parent.parent
sys.dont_write_bytecode = True
sys.path.insert(0, str(TOP / "tests"))

import figures  # noqa: E402
import segment_file as layout  # noqa: E402
from figures import Figures  # noqa: E402
from preload import library  # noqa: E402
from program import Program  # noqa: E402
from serving import SCAN, Server, entries_of, reply, segments  # noqa: E402

PARTS = (
    "updates", "crowds", "scans", "parts", "starts", "told", "comers", "memory", "held", "beside", "stages", "openings",
)
SEGMENTS, SPAN = 16, 500
# Connections a second that come and go, beside which a median update was once 4 ms.
FLOOD = 12_600
# What the numbers that `stages.c` notes are of, and last what a client waits beyond them.
STAGES = ("scan, wake-up, check of the file", "writes", "flushes", "check of the path, wake-up", "sending the reply",
          "to the server and back")
# The C library's settings in the unit of docs/RECIPES.md, each alone and both together.
PAGES, ARENAS = {"GLIBC_TUNABLES": "glibc.malloc.hugetlb=1"}, {"MALLOC_ARENA_MAX": "1"}
TOLD = {"nothing": {}, "large pages": PAGES, "one arena": ARENAS, "both": {**PAGES, **ARENAS}}


def page_faults(process):
    """How many pages the system has given it so far."""
    return int(pathlib.Path(f"/proc/{process}/stat").read_text().rpartition(")")[2].split()[7])


def ratio(mine, other):
    """The median of the rounds' ratios."""
    return statistics.median(a / b for a, b in zip(mine, other))


def processor_time(process):
    """The processor time of all threads of a process, also of those that have ended, in microseconds."""
    # (the clock of another process, as clock_getcpuclockid(3) gives it)
    return time.clock_gettime_ns(~process << 3 | 2) / 1e3


class Yardstick:
    """`echo serve` or `echo live`, as `Server` is for snapd."""

    def __init__(self, echo, kind, folder, count, length, env=None):
        words = [echo, kind, folder, str(count), str(length)]
        self.process = subprocess.Popen(words, stdout=subprocess.PIPE, text=True, env={**os.environ, **(env or {})})
        self.place = ("127.0.0.1", int(self.process.stdout.readline().rpartition(":")[2]))

    def __enter__(self):
        return self

    def __exit__(self, *_):
        self.process.kill()
        self.process.communicate()


class Bench:
    def __init__(self, folder, program, rounds, flush=0):
        self.folder, self.rounds, self.flush, self.figures = folder, rounds, flush, Figures()
        self.snapd = Program(program, folder)
        self.echo, self.client = self.compiled("echo"), self.compiled("load")

    def show(self, label, rows, unit, more):
        """Prints and keeps what was measured of two in the same rounds, and the rounds' ratios."""
        (_, mine), (of, other) = rows.items()
        whole, part = self.figures.note_all(label, rows, unit)
        self.figures.note(label, f"snapd, divided by {of}", [a / b for a, b in zip(mine, other)], "ratio")
        print(f"{label:<48} {whole:>9,.1f} {unit} {part:>9,.1f} {unit}   {more}", flush=True)

    def compiled(self, name):
        target = self.folder / name
        words = ["gcc", "-O2", "-Wall", "-pthread", "-o", target, TOP / "bench" / f"{name}.c", "-ldl"]
        subprocess.run(words, check=True)
        return target

    def preloaded(self, name):
        """The library of `NAME.c` for LD_PRELOAD."""
        target = self.folder / f"{name}.so"
        words = ["gcc", "-shared", "-fPIC", "-O2", "-Wall", "-o", target, TOP / "bench" / f"{name}.c", "-ldl"]
        subprocess.run(words, check=True)
        return str(target)

    def files(self, place, length, count=SEGMENTS):
        """Files of `count` segments whose values have `length` bytes, in a folder of their own."""
        (self.folder / place).mkdir(exist_ok=True)
        held = [(1, b"v" * length), (2, b"v" * length)]
        return segments(self.snapd, *[held] * count, folder=place)

    def load(self, server, length, writers, readers, kind="snapd", count=SEGMENTS, comers=(0, 0), part=0, env=None):
        """Updates a second, their median and 99th percentile in microseconds, and the same of scans, and of connections
        that come and go. `comers` is how many at once, and how many a second. With a part the scans are of the segments
        in it."""
        words = [self.client, server.place[1], kind, count, length, writers, readers, SPAN, *comers]
        env = {**os.environ, **({"PART": f"{part:04x}"} if part else {}), **(env or {})}
        run = subprocess.run(list(map(str, words)), check=True, stdout=subprocess.PIPE, text=True, env=env)
        lines = [line.split()[1:] for line in run.stdout.splitlines()]
        return [(float(rate), int(median) / 1e3, int(most) / 1e3) for rate, median, most in lines]

    def calls(self, place, writers):
        """Stores a second that are nothing but their calls, and the median of their microseconds."""
        words = [self.echo, "calls", self.folder / place, str(writers), str(SPAN)]
        run = subprocess.run(words, check=True, stdout=subprocess.PIPE, text=True)
        rate, median = run.stdout.split()
        return float(rate), int(median) / 1e3

    def yardstick(self, length, kind="serve", env=None):
        return Yardstick(self.echo, kind, self.folder / "yardstick", SEGMENTS, length, env)

    def updates(self):
        """An update beside its calls, and updates a second."""
        length = 1_000
        # The calls alone, the yardstick and the server each have files of their own.
        for place in ("bare", "yardstick", "files"):
            files = self.files(place, length)
        with Server(self.snapd, *files, scanners=4) as server, self.yardstick(length) as echo:
            for writers in (1, SEGMENTS):
                found = []
                for _ in range(self.rounds):
                    bare = self.calls("bare", writers)
                    behind, mine = (self.load(it, length, writers, 0)[0] for it in (echo, server))
                    found.append((*bare, *behind[:2], *mine[:2]))
                bare_rate, bare, echo_rate, behind, rate, mine = zip(*found)
                if writers == 1:
                    for label, other, of, aim in (
                        ("update, and its device calls alone", bare, "calls", 1.1),
                        ("update, and the yardstick with the same calls", behind, "yardstick", 1.3),
                    ):
                        self.show(label, {"snapd": mine, of: other}, "us", f"{ratio(mine, other):.3f}   (aim {aim})")
                name = f"updates a second, {writers} writer{'s' * (writers > 1)}, and bare calls"
                more = f"{ratio(rate, bare_rate):.3f}   (aim 0.8; the yardstick's {statistics.median(echo_rate):,.0f})"
                self.show(name, {"snapd": rate, "calls": bare_rate}, "/s", more)

    def crowds(self):
        """Updates of 1, 4 and 16 writers, and scans, beside the yardstick's: medians, 99th percentiles, and the
        processor time of an update."""
        length = 1_024
        for place in ("yardstick", "files"):
            files = self.files(place, length)
        env = {"LD_PRELOAD": self.preloaded("flush"), "FLUSH_US": str(self.flush)} if self.flush else {}
        with Server(self.snapd, *files, scanners=SEGMENTS, env=env) as server, self.yardstick(length, env=env) as echo:
            for writers in (1, 4, SEGMENTS):
                found = self.in_turn((echo, server), lambda it: self.spent(it, length, writers))  # noqa: B023
                for at, what in enumerate(("", ", 99th percentile", ", processor time")):
                    label = f"{f'updates of {writers}{what}':<48}"
                    self.figures.show_pairs(label, ("yardstick", "snapd"), "us", [(a[at], b[at]) for a, b in found])
            for name, writers, readers in (("alone", 0, 1), ("beside 3 readers", 0, 4), ("beside 16 writers", 16, 1)):
                measure = lambda it: self.load(it, length, writers, readers)[1][1]  # noqa: B023, E731
                pairs = self.in_turn((echo, server), measure)
                self.figures.show_pairs(f"{f'a scan {name}':<48}", ("yardstick", "snapd"), "us", pairs)

    def in_turn(self, sides, measure):
        """What each round found of both sides, whose order changes from round to round; the first doesn't count."""
        rounds = [[measure(it) for it in sides[:: 1 - turn % 2 * 2]] for turn in range(self.rounds + 1)]
        return [it[:: 1 - turn % 2 * 2] for turn, it in enumerate(rounds)][1:]

    def spent(self, server, length, writers):
        """The median of an update, its 99th percentile, and the server's processor time of one."""
        before = processor_time(server.process.pid)
        rate, *times = self.load(server, length, writers, 0)[0]
        return *times, (processor_time(server.process.pid) - before) / (rate * SPAN / 1e3)

    def scans(self):
        """A scan beside the yardstick's reply of the same size, alone and beside writers."""
        for length in (8, 1_000, layout.MAX_VALUE):
            for place in ("yardstick", "files"):
                files = self.files(place, length)
            with (
                Server(self.snapd, *files, scanners=4) as server,
                self.yardstick(length) as echo,
                self.yardstick(length, "live") as live,
            ):
                for writers in (0, SEGMENTS):
                    found = []
                    for _ in range(self.rounds):
                        found.append([self.load(it, length, writers, 1)[1][1] for it in (server, echo, live)])
                    mine, bare, lively = zip(*found)
                    name = f"scan of 16 x {length:,} bytes" + (", beside 16 writers" if writers else "")
                    more = f"{ratio(mine, bare):.3f}   (aim 1.5; with live values {ratio(mine, lively):.3f})"
                    self.show(name, {"snapd": mine, "yardstick": bare}, "us", more)

    def parts(self):
        """A scan of some segments of 16 beside a whole one of a server with as many, alone and beside writers."""
        length = 1_000
        files = self.files("files", length)
        for named in (1, 4, SEGMENTS):
            few = self.files("few", length, named)
            with Server(self.snapd, *files, scanners=4) as server, Server(self.snapd, *few, scanners=4) as small:
                for writers in (0, SEGMENTS):
                    found = []
                    for _ in range(self.rounds):
                        part = self.load(server, length, writers, 1, part=(1 << named) - 1)[1][1]
                        whole = self.load(small, length, min(writers, named), 1, count=named)[1][1]
                        found.append((part, whole))
                    mine, whole = zip(*found)
                    name = f"scan of {named} of 16, and of {named} of {named}" + (", beside writers" if writers else "")
                    more = f"{ratio(mine, whole):.3f}   (aim 1.15)"
                    self.show(name, {"snapd": mine, "of as many": whole}, "us", more)

    def comers(self):
        """An update of one writer beside connections that come and go."""
        length = 1_000
        for place in ("yardstick", "files"):
            files = self.files(place, length)
        with Server(self.snapd, *files, scanners=4) as server, self.yardstick(length) as echo:
            for comers in ((2, FLOOD), (1, 0)):
                found = []
                for _ in range(self.rounds):
                    times = []
                    for it in (server, echo):
                        quiet = self.load(it, length, 1, 0)[0][1]
                        beside, _, came = self.load(it, length, 1, 0, comers=comers)
                        times += [quiet, beside[1], came[0]]
                    found.append(times)
                quiet, beside, came, its_quiet, its_beside, its_rate = zip(*found)
                name = f"update beside {statistics.median(came):,.0f} connections a second, quiet"
                its = f"the yardstick's {ratio(its_beside, its_quiet):.3f} beside {statistics.median(its_rate):,.0f}"
                more = f"{ratio(beside, quiet):.3f}   (aim 300 us; {its})"
                self.show(name, {"snapd": beside, "quiet": quiet}, "us", more)

    def told(self):
        """A start with each of the C library's settings, in multiples of one without."""
        files = self.files("files", 1_000)
        found = {name: [] for name in TOLD}
        for _ in range(4 * self.rounds):
            for name, env in TOLD.items():
                began = time.perf_counter()
                with Server(self.snapd, *files, scanners=4, env=env) as server:
                    took = (time.perf_counter() - began) * 1e3
                    found[name].append((took, page_faults(server.process.pid), server.memory()))
        bare, bare_faults, _ = zip(*found["nothing"])
        for name, rows in found.items():
            if name == "nothing":
                continue
            took, *others = zip(*rows)
            faults, kilobytes, its = map(statistics.median, (*others, bare_faults))
            more = (
                f"{ratio(took, bare):.3f}"
                f"   ({faults:,.0f} page faults, and {its:,.0f}; {kilobytes:,.0f} kB resident)"
            )
            self.show(f"start of 16 files by {name}, and by nothing", {"snapd": took, "nothing": bare}, "ms", more)

    def starts(self):
        """From the start of the process to its line `listening`."""
        files = self.files("files", 1_000)
        bare_words = [self.echo, "start", *[self.folder / file for file in files]]
        found = []
        for _ in range(4 * self.rounds):
            began = time.perf_counter()
            with Server(self.snapd, *files, scanners=16) as server:
                mine = time.perf_counter() - began
                kilobytes = server.memory()
            began = time.perf_counter()
            subprocess.run(bare_words, check=True, stdout=subprocess.PIPE)
            bare = time.perf_counter() - began
            touched = subprocess.run(
                [self.echo, "touch", str(kilobytes)], check=True, stdout=subprocess.PIPE, text=True
            )
            found.append((mine * 1e3, bare * 1e3, int(touched.stdout.split()[0]) / 1e6))
        mine, bare, touch = zip(*found)
        more = statistics.median(it[0] - it[1] for it in found)
        more = f"{more:.2f} ms more   (aim 20; as much memory is written and copied in {statistics.median(touch):.1f})"
        self.show("start of 16 files to its line, and bare opening", {"snapd": mine, "opening": bare}, "ms", more)

    def memory(self):
        """kB resident, with the longest values, and with idle connections."""
        files = self.files("files", layout.MAX_VALUE)
        for scanners in (1, 4, 16):
            with Server(self.snapd, *files, scanners=scanners) as server:
                opened = server.memory()
                self.load(server, layout.MAX_VALUE, SEGMENTS, 8)
                used = server.memory()
                idle = [server.connect() for _ in range(2_000)]
                # All have been accepted once a later one is answered on each worker.
                for _ in range(scanners):
                    with server.connect() as stream:
                        stream.sendall(SCAN)
                        assert len(entries_of(reply(stream))) == SEGMENTS
                many = server.memory()
                for stream in idle:
                    stream.close()
            name = f"kB resident with {scanners} scanner{'s' * (scanners > 1)}"
            for of, kilobytes in (("opened", opened), ("after a load", used), ("with 2,000 idle connections", many)):
                self.figures.note(name, of, [kilobytes], "kB")
            print(f"{name:<48} opened {opened:,}, after a load {used:,}, with 2,000 idle connections {many:,}")

    def held(self):
        """A scan on one worker beside stores that are held at each sync."""
        control = self.folder / "control"
        env = {"LD_PRELOAD": library("disk_control"), "DISK_CONTROL": str(control)}
        files = self.files("files", 1_000)
        self.files("yardstick", 1_000)
        held = "".join(f"S{segment} sync rest 2000\n" for segment in range(SEGMENTS))
        found = []
        control.write_text("")
        with Server(self.snapd, *files, scanners=1, env=env) as server, self.yardstick(1_000, env=env) as echo:
            for _ in range(self.rounds):
                times = []
                for it in (server, echo):
                    alone = self.load(it, 1_000, 0, 1)[1]
                    control.write_text(held)
                    updates, beside, _ = self.load(it, 1_000, SEGMENTS, 1)
                    control.write_text("")
                    times += [*alone[1:], *beside[1:], updates[1]]
                found.append(times)
        alone, alone99, beside, beside99, update, *echo = zip(*found)
        more = f"{ratio(beside, alone):.3f}   (aim 1; the yardstick's {ratio(echo[2], echo[0]):.3f})"
        self.show("scan beside stores held 2 ms at each sync, alone", {"snapd": beside, "alone": alone}, "us", more)
        more = f"{ratio(beside99, alone99):.3f}   (aim 1; the yardstick's {ratio(echo[3], echo[1]):.3f}; "
        more += f"an update takes {statistics.median(update):,.0f} us)"
        self.show("  the 99th percentiles", {"snapd": beside99, "alone": alone99}, "us", more)

    def beside(self):
        """Scans beside 0 to 16 writers: the server's, and the yardstick's of live values."""
        length = 1_000
        for place in ("yardstick", "files"):
            files = self.files(place, length)
        with Server(self.snapd, *files, scanners=4) as server, self.yardstick(length, "live") as live:
            for writers in (0, 1, 2, 4, 8, SEGMENTS):
                found = []
                for _ in range(self.rounds):
                    found.append([it for at in (server, live) for it in self.load(at, length, writers, 1)[1][1:]])
                mine, mine99, its, its99 = zip(*found)
                name = f"scan beside {writers} writer{'s' * (writers != 1)}"
                self.show(name, {"snapd": mine, "yardstick": its}, "us", f"{ratio(mine, its):.3f}")
                name, more = f"  its 99th percentile, beside {writers}", f"{ratio(mine99, its99):.3f}"
                self.show(name, {"snapd": mine99, "yardstick": its99}, "us", more)

    def stages(self):
        """Where an update's time goes, in means. What a client waits beyond the server's time is the way to it and
        back."""
        length, noted = 1_000, self.folder / "stages"
        env = {"LD_PRELOAD": self.preloaded("stages"), "STAGES": str(noted)}
        with Server(self.snapd, *self.files("files", length), scanners=4, env=env) as server:
            rounds = []
            for _ in range(self.rounds):
                before = struct.unpack("6q", noted.read_bytes())
                whole = 1e6 / self.load(server, length, 1, 0)[0][0]
                count, *spent = (b - a for a, b in zip(before, struct.unpack("6q", noted.read_bytes())))
                spent = [it / count / 1e3 for it in spent]
                rounds.append((*spent, whole - sum(spent)))
        for name, values in zip(STAGES, zip(*rounds)):
            median = self.figures.note("where an update's time goes", name, values)
            print(f"{f'an update: {name}':<48} {median:>9,.1f} us", flush=True)

    def openings(self):
        """From the start of the process to its first reply, by the number of files, with a scanner each."""
        for count in (1, 2, 4, 8, SEGMENTS):
            files = self.files("files", 1_000, count)
            words, found = [self.echo, "start", *[self.folder / file for file in files]], []
            for _ in range(4 * self.rounds):
                began = time.perf_counter()
                with Server(self.snapd, *files, scanners=count) as server:
                    server.scan()
                    mine = time.perf_counter() - began
                began = time.perf_counter()
                subprocess.run(words, check=True, stdout=subprocess.PIPE)
                found.append((mine * 1e3, (time.perf_counter() - began) * 1e3))
            mine, bare = zip(*found)
            name = f"start of {count} file{'s' * (count > 1)} to a reply, and bare opening"
            self.show(name, {"snapd": mine, "opening": bare}, "ms", f"{ratio(mine, bare):.3f}")


def main():
    words = figures.arguments(argparse.ArgumentParser())
    words.add_argument("--folder")
    words.add_argument("--rounds", type=int, default=5)
    words.add_argument("--program", default=str(TOP / "bin" / "snapd"))
    words.add_argument("--only", choices=PARTS)
    words.add_argument("--flush", type=int, default=0, metavar="US", help="how long a flush takes in `crowds`")
    words = words.parse_args()
    with tempfile.TemporaryDirectory(prefix="bench-", dir=words.folder or TOP) as folder:
        bench = Bench(pathlib.Path(folder).resolve(), words.program, words.rounds, words.flush)
        print(f"{'the server':<48} {'snapd':>12} {'yardstick':>12}   ratio")
        for part in PARTS if words.only is None else (words.only,):
            getattr(bench, part)()
        bench.figures.write(words.json, folder, words.program)


if __name__ == "__main__":
    main()
