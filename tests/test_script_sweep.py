"""Every call of a store and of a restart fails in a world, or is the last before a crash, with each fill that matters.
What the next restart serves is compared with the table that an independent model prints of a segment's calls (as
`try_parts segment-sweep` does), and for a restart's own calls with the rule of the disk model."""

import itertools
import re

from trials import foretold

FILLS = ("keep", "00", "a5")
VALUES = {"empty": "-", "hi": "6869", "yo": "796f"}
RESTART = ["restart", "recall", "recall", "serve"]
BEGIN_HI = ["begin 0 6869", "look w0", "look w0"]
BEGIN_YO = ["begin 0 796f", "look w0", "look w0"]
STORED_HI = [*BEGIN_HI, *["call 0"] * 4, "show 0", "ack 0"]


def last_line(snapd, script):
    run = snapd("script", stdin="".join(line + "\n" for line in ["world 1 1", *script]))
    assert run.status == 0 and run.errors == "", run
    return run.output.decode().splitlines()[-1]


def rows():
    """(lines up to the store, calls before the fault, the fault's fill, the value after a crash with each fill)."""
    before = None
    for line in foretold("segment-sweep").splitlines():
        if line.startswith("store of"):
            before = BEGIN_HI if line.startswith("store of hi") else [*STORED_HI, *BEGIN_YO]
        elif " of " in line.partition(":")[0]:
            before = None
        elif before is not None:
            call = re.match(r"(?:call (\d+) fails (\w+)|stop behind (\d+)): (.*); (.*)", line)
            assert call, line
            passed = int(call[1]) - 1 if call[1] else int(call[3])
            ends = [re.match(r"\d+ (\w+) ", end)[1] for end in call[5].split(" | ")]
            yield before, passed, call[2] or "keep", "DeviceFailed" in call[4], dict(zip(FILLS, ends))


def test_each_call_of_a_store_as_the_table_has_it(snapd, _):
    count = 0
    for before, passed, fill, fails, ends in rows():
        fault = [f"fail 0 {fill}"] if fails else []
        for crash, value in ends.items():
            script = [*before, *["call 0"] * passed, *fault, f"crash {crash}", *RESTART]
            assert last_line(snapd, script) == f"memory {VALUES[value]}", (script, value)
            count += 1
    assert count == 3 * (3 * 4 + 5 + 3 * 5 + 6), count


def test_a_crash_between_two_calls_of_a_store(snapd, _):
    """Only the write of the gate is open to a crash: before it comes the old value, and after its sync the new one."""
    for before, old, new, calls in (BEGIN_HI, "-", "6869", 4), ([*STORED_HI, *BEGIN_YO], "6869", "796f", 5):
        for passed, crash in itertools.product(range(calls + 1), FILLS):
            script = [*before, *["call 0"] * passed, f"crash {crash}", *RESTART]
            stored = passed == calls or (passed == calls - 1 and crash != "00")
            assert last_line(snapd, script) == f"memory {new if stored else old}", script


def test_each_call_of_a_restart_fails_or_is_the_last(snapd, _):
    """The gate that was written before the crash is an open place until the restart's sync succeeds."""
    begun = [*BEGIN_HI, *["call 0"] * 3]
    for first, fault, second in itertools.product(FILLS, FILLS, FILLS):
        for passed in (0, 1):
            fills = [first, fault, second] if passed == 0 else [first]
            changed = [fill for fill in fills if fill != "keep"]
            value = "-" if changed and changed[-1] == "00" else "6869"
            script = [*begun, f"crash {first}", "restart", *["recall"] * passed, f"refail {fault}"]
            assert last_line(snapd, [*script, f"crash {second}", *RESTART]) == f"memory {value}", script
        # A crash of the machine in place of a fault: after no call, after the sync, after both.
        for passed in (0, 1, 2):
            fills = [first, second] if passed == 0 else [first]
            changed = [fill for fill in fills if fill != "keep"]
            value = "-" if changed and changed[-1] == "00" else "6869"
            script = [*begun, f"crash {first}", "restart", *["recall"] * passed, f"crash {second}", *RESTART]
            assert last_line(snapd, script) == f"memory {value}", script
