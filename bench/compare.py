"""Times two builds of `snapd` in turn, in one run: what a change cost.

    python3 bench/compare.py BEFORE [AFTER] [--folder FOLDER] [--rounds N] [--json FILE]

BEFORE and AFTER are programs; AFTER is by default bin/snapd. In a round each does the same half second of work on files
of its own, or starts once, or does as many puts, and the order changes from round to round. A line has both medians,
and the median of the rounds' ratios with their quartiles: a ratio of 1.02 says that AFTER takes a fiftieth longer. The
files lie in FOLDER, by default a fresh folder beside this repository's own files, so that they are on a disk; in a
folder of memory, such as /dev/shm, more of an update is the program's own. With one program as both, the quartiles are
those of the machine alone.
"""

import argparse
import pathlib
import subprocess
import sys
import tempfile
import time

TOP = pathlib.Path(__file__).resolve().parent.parent
sys.dont_write_bytecode = True
sys.path.insert(0, str(TOP / "tests"))

import figures  # noqa: E402
from server import SEGMENTS, SPAN, Bench, processor_time  # noqa: E402
from serving import Server  # noqa: E402

LENGTH = 1_000
# The puts of a round, of each program.
PUTS = 20


class Comparison:
    """Two programs, each with a bench of its own in a folder of its own: the same load, other files."""

    def __init__(self, folder, before, after, rounds):
        self.rounds, self.figures = rounds, figures.Figures()
        self.sides = []
        for name, program in (("before", before), ("after", after)):
            (folder / name).mkdir()
            self.sides.append(Bench(folder / name, program, rounds))

    def show(self, label, unit, pairs):
        """Prints and keeps the medians and the ratio of what was measured in pairs."""
        self.figures.show_pairs(f"{label:<34}", ("before", "after"), unit, pairs)

    def in_turn(self, measure):
        """The figures of each round, of one side and of the other."""
        pairs = []
        for turn in range(self.rounds):
            found = {side: measure(side) for side in ((0, 1) if turn % 2 else (1, 0))}
            pairs.append((found[0], found[1]))
        return pairs

    def requests(self):
        """Updates and scans of servers that stay."""
        files = [bench.files("files", LENGTH) for bench in self.sides]
        with (
            Server(self.sides[0].snapd, *files[0], scanners=4) as first,
            Server(self.sides[1].snapd, *files[1], scanners=4) as second,
        ):
            servers = (first, second)
            for kind, label, writers, readers in (
                (0, "update, 1 writer", 1, 0),
                (0, "update, 16 writers", SEGMENTS, 0),
                (1, "scan of 16 values", 0, 1),
                (1, "scan of 16, beside 16 writers", SEGMENTS, 1),
            ):
                measure = lambda side: (  # noqa: E731
                    self.sides[side].load(servers[side], LENGTH, writers, readers)[kind][1]  # noqa: B023
                )
                measure(0), measure(1)
                self.show(label, "us", self.in_turn(measure))
            for writers in (1, SEGMENTS):
                measure = lambda side: self.spent(side, servers[side], writers)  # noqa: B023, E731
                self.show(f"processor, an update of {writers}", "us", self.in_turn(measure))

    def spent(self, side, server, writers):
        """A server's processor time of one update, with so many writers."""
        before = processor_time(server.process.pid)
        updates = self.sides[side].load(server, LENGTH, writers, 0)[0][0] * SPAN / 1e3
        return (processor_time(server.process.pid) - before) / updates

    def starts(self):
        """From the start of the process to its first reply: a program may have moved work from before its line
        `listening` to after it."""
        files = [bench.files("starts", LENGTH) for bench in self.sides]

        def measure(side):
            began = time.perf_counter()
            with Server(self.sides[side].snapd, *files[side], scanners=16) as server:
                server.scan()
                return (time.perf_counter() - began) * 1e3

        measure(0), measure(1)
        self.show("start of 16 files to a first reply", "ms", self.in_turn(measure))

    def puts(self):
        """A whole process that stores one value, each on the same file as it was at first."""
        timer, value = self.sides[0].compiled("timer"), self.sides[0].folder / "value"
        value.write_bytes(b"v" * LENGTH)
        start = self.sides[0].snapd.formatted("start")
        words = [[bench.snapd.path, "put", start.with_name("F")] for bench in self.sides]

        def pair(first, second):
            line = [timer, PUTS, value, start.with_name("F"), start, *words[first], "--", *words[second]]
            run = subprocess.run(list(map(str, line)), check=True, stdout=subprocess.PIPE, text=True)
            return [int(it) / 1e3 for it in run.stdout.split()[1:5:3]]

        pair(0, 1)
        pairs = [pair(0, 1) if turn % 2 else pair(1, 0)[::-1] for turn in range(self.rounds)]
        self.show("put, a whole process", "us", pairs)


def main():
    words = figures.arguments(argparse.ArgumentParser(description="Times two builds of snapd in turn."))
    words.add_argument("before")
    words.add_argument("after", nargs="?", default=str(TOP / "bin" / "snapd"))
    words.add_argument("--folder")
    words.add_argument("--rounds", type=int, default=24)
    words = words.parse_args()
    if words.rounds < 2:
        sys.exit("quartiles want 2 rounds at least")
    for it in (words.before, words.after):
        if not pathlib.Path(it).is_file():
            sys.exit(f"there is no program {it}")
    with tempfile.TemporaryDirectory(prefix="bench-", dir=words.folder or TOP) as folder:
        comparison = Comparison(pathlib.Path(folder).resolve(), words.before, words.after, words.rounds)
        print(f"{'':<34} {'before':>12} {'after':>12}   ratio   (quartiles)")
        comparison.requests()
        comparison.starts()
        comparison.puts()
        comparison.figures.write(words.json, folder, words.after)


if __name__ == "__main__":
    main()
