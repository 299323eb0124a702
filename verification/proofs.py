"""Proves crates in a copy by the kit's `rt ci`, tries edits there, and prints the progress.

    python3 proofs.py [--anew] [--over] [NAME ..]

is the kit's `rt ci` in this folder, except that tests aren't proved; that crates are in the order of their recorded
times, with the longest chain first; and that what was proved before is taken from our archive, but not these crates,
with --anew none, and never what came of an edit. With --over the tries of a crate's edits begin with what `rt check`
left of it in the checkout, if it did. The kit's own lines are in LOG.

The archive is as `rt ci` keeps it, but in a folder of ours, and with comments left out of each crate's sum. Whoever can
write to it can forge a proof.
"""

import hashlib
import json
import os
import pathlib
import re
import shutil
import sys
import time
from concurrent.futures import ThreadPoolExecutor

import kit
from digests import summed
from locks import Record
from quick import place, put, ran
from tree import TOP, copied, crates_of, proved_crates, texts_of, with_below

# What each crate took on record, and what one takes that isn't.
SECONDS, UNKNOWN = {name: it.seconds for name, it in Record.read(TOP).items()}, 60
# A line that tells how a crate's proof ended, and the last line of tests.
TOLD, COUNT = re.compile(r"\[.*\] (\w+) (was kept|proved in (\d+) s)"), re.compile(r"(\d+) passed, (\d+) failed")
# How many lines of a failed run are shown again.
LAST = 12
LOG = TOP / "out" / "proofs.log"


def opened():
    """The kit's command as a module that keeps what it proves in our archive. (It lets nobody else write there, and
    uses none that is another user's.)"""
    rt, caches = kit.load(), os.environ.get("XDG_CACHE_HOME") or pathlib.Path.home() / ".cache"

    def own_sum(crate):
        """The sum of all that a crate's proof reads but the libraries below it."""
        folder, top = pathlib.Path(crate.folder), pathlib.Path(crate.folder).parent.parent
        line = crates_of(top)[crate.name].line
        return summed(rt.kit_sum(), (top / "HANDLES").read_bytes(), line, *texts_of(folder))

    rt.STORE, rt.own_sum = f"{caches}/snapd-proofs", own_sum
    return rt


def lacking(top, is_laid=False):
    """The libraries of a checkout that the archive lacks, or that use one of these. With `is_laid` the others are put
    into their crates' out/, with the stamp by which `rt check` sees that nothing has changed since. (Statements fit
    only the libraries that they were built over, so what else is there is removed.)"""
    rt, found = opened(), []
    crates = [it for it in rt.rtlib.crates_below(str(top)) if it.makes_rlib() and it.name in proved_crates(top)]
    kept = rt.Kept(crates)
    for crate in crates:
        # (over a library that is lacking, nothing was kept under this key)
        key, out = kept.key(crate), pathlib.Path(crate.folder, "out", "rlib")
        made = pathlib.Path(kept.place(crate, False, key), "made.json")
        if is_laid:
            shutil.rmtree(out, ignore_errors=True)
        if not made.exists() or is_laid and not kept.give(crate, False, key):
            found.append(crate.name)
            continue
        # (the library's sum, as the kit forms it)
        files = [tuple(it) for it in json.loads(made.read_text())["files"]]
        kept.rlibs[crate.name] = hashlib.sha256(repr(files).encode()).hexdigest()
        if is_laid:
            (out / "stamp").write_text(crate.stamp())
    return found


def judged(names, told, status, log):
    """What came of these crates' proofs: how many passed, how many failed, and what is said of these. A crate that
    isn't told to be proved has failed, and so has a run that ends with a status of failure."""
    passed = {it[1] for it in told}
    failed = len({*names} - passed) or int(status != 0)
    shown = [it for it in log if re.search(r"NOT PROVED|FAILED|: error", it) and "must-fail" not in it] or log
    return len(passed), failed, [*shown[-LAST:], f"the whole log: {os.path.relpath(LOG)}"] if failed else []


def prove(names, edits, chosen, anew=(), programs=()):
    """Proves these crates with all below them, and takes these programs; tries the chosen edits, and records what was
    refused. Returns the seconds that each proof took, and what came of the proofs and of the edits."""
    names, began = with_below(crates_of(TOP), {*names, *(it[0] for it in chosen)}), time.monotonic()
    LOG.parent.mkdir(exist_ok=True)
    # (a run that ends before it has written a line is not told by those of an earlier one)
    LOG.write_text("")
    with copied(TOP, names, chosen) as copy:
        words = [sys.executable, TOP / "verification" / "proofs.py", *anew]
        status, lines = ran(words, lambda it: print(it, flush=True), cwd=copy)
        for it in programs:
            put(copy / "crates" / it / "out" / it, place(it), "proved")
    told, log = [*filter(None, map(TOLD.match, lines))], [*LOG.read_text().split("\n"), *lines]
    tried = edits.take(chosen, log)
    if chosen:
        edits.write(TOP)
    # (an edit that isn't refused gives a status, too)
    proofs = judged(names, told, status and not tried[1], log)
    kept = f"{sum(not it[3] for it in told)} of them from this machine's archive of earlier runs"
    print(f"proofs: {proofs[0]} crates passed in {time.monotonic() - began:.0f} s, {kept}", flush=True)
    return {it[1]: int(it[3]) for it in told if it[3]}, [proofs, tried]


def by_seconds(tasks, seconds, lanes):
    """The kit's tasks with what each proof took last in place of its lines, by which the longest chain is found. The
    proofs of what no other crate uses, as the program, which comes last, and of that before its edits, get all
    processors and not only those that are idle as they begin. Of the memory that the kit expects, proofs take half."""
    used, timed = {name for (_, kind, *_), task in tasks.items() if kind == "proof" for name, _ in task[0]}, {}
    for key, (waits, _, needs, call) in tasks.items():
        if key[1] in ("proof", "seed"):
            needs, call = needs // 2, call if key[0] in used else lambda given, _, call=call: call(given, lanes)
        timed[key] = waits, (seconds.get(key[0]) or UNKNOWN) * (key[1] == "proof"), needs, call
    return timed


def main():
    rt, anew, out = opened(), sys.argv[1:], sys.stdout
    in_lanes, ci, compile_by, seeded, give = rt.in_lanes, rt.Crate.ci, rt.Crate.compile_by, rt.seeded, rt.Kept.give
    left = {it: SECONDS.get(it) or UNKNOWN for it in crates_of(pathlib.Path.cwd())}
    every = len(left)

    def tell(name, said):
        """Tells how a crate's proof ended, and how long the others still take."""
        left.pop(name, None)
        minutes = max(1, round(sum(left.values()) / rt.processors() / 60))
        rest = f", about {minutes} min left" if left else ""
        # (one write, since several threads tell)
        print(f"[{every - len(left)} of {every}] {name} {said}{rest}\n", end="", file=out, flush=True)

    def proved(crate, flags, tests):
        began = time.monotonic()
        status = ci(crate, flags, tests)
        tell(crate.name, "NOT PROVED" if status else f"proved in {time.monotonic() - began:.0f} s")
        return status

    def given(kept, crate, tests, key):
        is_given = crate.name not in anew and give(kept, crate, tests, key)
        if is_given:
            tell(crate.name, "was kept")
        return is_given

    def begun(crate, flags, start=None):
        """Proves a crate, over which its edits are tried."""
        print(f"{crate.name}: trying its must-fail edits\n", end="", file=out, flush=True)
        work = TOP / "crates" / crate.name / "out" / "incremental"
        return seeded(crate, flags, str(work) if "--over" in anew and work.is_dir() else start)

    def compiled(crate, backend, words, to):
        """Compiles a program by all compilers of the kit side by side, where it asks for the first of them."""
        with ThreadPoolExecutor() as pool:
            first, every = [*rt.BACKENDS][0], lambda it: compile_by(crate, it, words, to)
            return backend == first and any(pool.map(every, rt.BACKENDS))

    rt.Crate.ci, rt.Kept.give, rt.seeded, rt.Crate.compile_by = proved, given, begun, compiled
    rt.in_lanes = lambda tasks: in_lanes(by_seconds(tasks, SECONDS, rt.processors()))
    rt.rtlib.Crate.has_tests = lambda crate: False
    rt.Kept.tried = lambda kept, name: None
    with LOG.open("w") as sys.stdout:
        return rt.main(["ci", *["--anew"] * ("--anew" in anew)])


if __name__ == "__main__":
    sys.exit(main())
