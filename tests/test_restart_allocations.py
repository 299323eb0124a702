"""Each allocation of an opening of all files is refused in turn: `NoMemory`, no file is changed, and the same files
open afterwards. Updates, closing, meetings and scans ask for none. `try_parts restart-allocations` does them and prints
what came of it; the end-to-end tests want it built (`make programs`)."""

import os
import subprocess

from preload import library
from trials import trial
from waiting import PATIENCE

STEPS = ("made", "opened", "updated", "closed", "reopened", "scanned")
FILES = 3


def run(step, **env):
    more = {"LD_PRELOAD": library("allocations"), **env}
    done = subprocess.run(
        trial("restart-allocations", step), env={**os.environ, **more}, capture_output=True, timeout=PATIENCE
    )
    return done.returncode, done.stdout.decode()


def counts(folder):
    """How many allocations a run makes up to the end of each step."""
    found = {}
    for step in STEPS:
        status, _ = run(step, ALLOCATIONS_COUNT=str(folder / "count"))
        assert status == 0
        found[step] = int((folder / "count").read_text())
    return found


def refusals(output):
    """The lines that say that an opening was refused, and the output without them."""
    lines = output.splitlines()
    refused = [line for line in lines if line.startswith("NoMemory at ")]
    return refused, [line for line in lines if line not in refused]


def is_refused_right(line, before):
    """The files before the refused one took two calls more, and the others none. After the last file all of them
    did."""
    segment, calls = line.removeprefix("NoMemory at segment ").split(", calls ")
    taken = [after - earlier for after, earlier in zip(map(int, calls.split()), before)]
    return taken == [2] * int(segment) + [0] * (FILES - int(segment))


def test_each_allocation_of_a_restart_is_refused(snapd, _):
    count = counts(snapd.folder)
    assert count["opened"] == count["updated"] == count["closed"], count
    assert count["reopened"] == count["scanned"], count
    status, ample = run("scanned")
    assert status == 0 and refusals(ample)[0] == []
    closed = [int(word) for word in ample.split("closed, calls ")[1].splitlines()[0].split()]
    segments = set()
    for number in range(1, count["scanned"] + 1):
        status, output = run("scanned", ALLOCATIONS_REFUSE=str(number))
        refused, rest = refusals(output)
        if number <= count["made"]:
            # Before the first opening the program itself may want it.
            assert (status, output) in ((1, ""), (0, ample)), (number, output)
            continue
        # Each of the others is one of an opening, which is refused, and is done whole when it is made again.
        assert status == 0 and len(refused) == 1, (number, output)
        is_first = number <= count["opened"]
        # A formatting makes seven calls. The second opening follows the first, whose calls are in the line of closing.
        before = [7] * FILES if is_first else closed
        assert is_refused_right(refused[0], before), (number, refused)
        lines = ample.splitlines()
        if is_first:
            # A file that had been opened was read twice more.
            at = next(k for k, line in enumerate(lines) if line.startswith("closed"))
            assert rest[:at] + rest[at + 1 :] == lines[:at] + lines[at + 1 :], (number, rest)
        else:
            assert rest == lines, (number, rest)
        segments.add(refused[0].split(", ")[0])
    assert segments == {f"NoMemory at segment {k}" for k in range(FILES + 1)}, segments
