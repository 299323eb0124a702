"""Each allocation of a node's answers is refused in turn: a scan and a status are refused `NoMemory`, and updates ask
for none. `try_parts service-allocations` makes the requests and prints the last reply; the end-to-end tests want it
built (`make programs`)."""

import os
import subprocess

from preload import library
from trials import trial
from waiting import PATIENCE

SEGMENTS = 3


def run(work, rounds, **env):
    """What a run over three segments with values of 40 bytes prints."""
    words = trial("service-allocations", work, rounds)
    more = {"LD_PRELOAD": library("allocations"), **env}
    env = {**os.environ, **more}
    return subprocess.run(words, env=env, check=True, stdout=subprocess.PIPE, text=True, timeout=PATIENCE).stdout


def count(folder, work, rounds):
    """How many allocations the run makes."""
    run(work, rounds, ALLOCATIONS_COUNT=str(folder / "count"))
    return int((folder / "count").read_text())


def refuse_each(folder, work, answer):
    """Refuses each allocation of two rounds beyond those before them. Gives how many each round makes."""
    before, between, after = (count(folder, work, rounds) for rounds in (0, 1, 2))
    assert run(work, 2) == answer
    for number in range(before + 1, after + 1):
        # The round after one that was refused is answered.
        printed = run(work, 2, ALLOCATIONS_REFUSE=str(number))
        assert printed == ("refused NoMemory 0\n" if number > between else answer), (work, number, printed)
    return between - before, after - between


def test_each_allocation_of_an_answer_is_refused(snapd, _):
    # The list; and once the place of the kept values, and of each value its bytes and their owners. What hasn't changed
    # is shared.
    assert refuse_each(snapd.folder, "scan", f"snapshot of {SEGMENTS}\n") == (2 + 2 * SEGMENTS, 1)
    # The list of two, and that of what their segments are; and once as above, of two values.
    assert refuse_each(snapd.folder, "part", "part of 2\n") == (3 + 2 * 2, 2)
    assert refuse_each(snapd.folder, "status", f"status of {SEGMENTS}\n") == (1, 1)


def test_updates_through_a_node_ask_for_no_memory(snapd, _):
    assert count(snapd.folder, "update", 0) == count(snapd.folder, "update", 100)
    assert run("update", 100) == "stored 2\n"
