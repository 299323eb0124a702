"""Keeps what a benchmark measures, and writes it as JSON: `--json FILE` of each of them.

A document has the benchmark with its words, the date, the machine, the program, and `figures`. A figure says `what` was
measured `of` whom, in which `unit`, its `median`, its `quartiles`, or null if it was measured once, and how many
`rounds` there were. Times are microseconds (`us`); other units are `ratio`, `a second`, `kB` and `count`.
`bench/plots.py` draws such documents.
"""

import datetime
import json
import os
import pathlib
import platform
import statistics
import subprocess
import sys

MICROSECONDS, UNITS = {"ns": 1e-3, "us": 1, "ms": 1e3, "s": 1e6}, {"/s": "a second"}


def machine(folder):
    """The machine, in words."""
    cpuinfo = pathlib.Path("/proc/cpuinfo").read_text().splitlines()
    models = [line.partition(":")[2].strip() for line in cpuinfo if line.startswith("model name")]
    memory = int(pathlib.Path("/proc/meminfo").read_text().split()[1]) / 2**20
    words = ["findmnt", "--noheadings", "--output", "FSTYPE", "--target", str(folder)]
    system = subprocess.run(words, capture_output=True, text=True, check=True).stdout.strip()
    model = models[0] if models else platform.machine()
    return f"{os.cpu_count()} processors ({model}), {memory:.0f} GiB of memory, Linux {platform.release()}, {system}"


class Figures:
    """The figures of one run."""

    def __init__(self):
        self.noted = []

    def note(self, what, of, values, unit="us"):
        """Keeps the figures of the rounds, and gives their median in the unit that they came in."""
        values = [*values]
        low, high = statistics.quantiles(values, n=4, method="inclusive")[::2] if len(values) > 1 else (None, None)
        median = statistics.median(values)
        self.keep(what, of, (low, median, high), unit, len(values))
        return median

    def keep(self, what, of, quarters, unit, rounds):
        """Keeps a median between its quartiles, which are None where there were no rounds."""
        factor = MICROSECONDS.get(unit, 1)
        low, median, high = (it if it is None else round(it * factor, 4) for it in quarters)
        self.noted.append({
            "what": what, "of": of, "unit": "us" if unit in MICROSECONDS else UNITS.get(unit, unit), "median": median,
            "quartiles": None if low is None else [low, high], "rounds": rounds,
        })

    def show_pairs(self, label, names, unit, pairs):
        """Keeps and prints what was measured of two in pairs: both medians, that of the ratios, and its quartiles."""
        what, (before, after) = label.strip(), zip(*pairs)
        before, after = self.note_all(what, dict(zip(names, (before, after))), unit)
        ratio = self.note(what, f"{names[1]}, divided by {names[0]}", [it / by for by, it in pairs], "ratio")
        low, high = self.noted[-1]["quartiles"]
        quartiles = f"({low:.3f} to {high:.3f})"
        print(f"{label} {before:>9,.1f} {unit} {after:>9,.1f} {unit}   {ratio:.3f}   {quartiles}", flush=True)

    def note_all(self, what, rows, unit="us"):
        """Keeps figures of several, which were measured in the same rounds, and gives their medians."""
        return [self.note(what, of, values, unit) for of, values in rows.items()]

    def write(self, path, folder, program):
        """Writes all of them, if there is a path."""
        if path is None:
            return
        version = subprocess.run([program, "--version"], capture_output=True, text=True, check=True).stdout
        document = {
            "benchmark": " ".join([pathlib.Path(sys.argv[0]).name, *sys.argv[1:]]),
            "date": datetime.date.today().isoformat(), "machine": machine(folder),
            "program": "; ".join(line.strip() for line in version.splitlines()), "figures": self.noted,
        }
        pathlib.Path(path).write_text(json.dumps(document, indent=1) + "\n", encoding="utf-8")


def arguments(words):
    """Adds `--json` to the words of a benchmark."""
    words.add_argument("--json", metavar="FILE", help="write the figures to this file, too")
    return words
