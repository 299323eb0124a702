"""The plug is pulled on threads thousands of times, by `try_parts plug`, and each crash leaves what it may leave.

Which call pulls it and what the crashes fill are drawn from the seed. Where the threads are then is no one's choice, so
what is asked here is that each case occurs."""

import re
import subprocess

from trials import trial
from waiting import PATIENCE

COUNTS = re.compile(
    r"the plug was pulled in (?P<rounds>\d+) rounds: "
    r"(?P<at_rest>\d+) found a writer at rest, (?P<in_store>\d+) inside a store, "
    r"(?P<before_answer>\d+) between its store and the answer\n"
    r"of the cut stores (?P<old>\d+) left the old value and (?P<new>\d+) the new one; "
    r"(?P<openings>\d+) openings were cut too\n"
    r"crashes left the bytes of (?P<kept>\d+) files, one byte at the open places of (?P<alike>\d+), "
    r"and tore (?P<torn>\d+)\n"
)


def pull(rounds, seed):
    """Pulls the plug so often, and says how often each case occurred."""
    run = subprocess.run(trial("plug", rounds, seed), capture_output=True, text=True, timeout=10 * PATIENCE)
    assert run.returncode == 0, run
    assert run.stdout == f"{rounds} rounds from seed {seed}: each crash left what it may leave\n", run
    found = COUNTS.fullmatch(run.stderr)
    assert found, run
    found = {case: int(count) for case, count in found.groupdict().items()}
    assert found.pop("rounds") == rounds
    return found


def test_ten_thousand_pulls(_, __):
    assert all(pull(10_000, 7).values())


def test_other_seeds(_, random):
    for seed in (20_261_126, random.getrandbits(64)):
        assert all(pull(500, seed).values()), seed
