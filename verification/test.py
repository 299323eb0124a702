"""The whole test, and with --prove the proof of all: `make test` and `make prove` (docs/PROMISES.md has what they try).

    python3 verification/test.py [--prove | --edits | --lay] [--all] [--fresh] [--seed N] [NAME ..]

With names --prove proves these programs alone, and --edits tries the edits of these crates. --lay gives `rt check` the
libraries that this machine has proved: in a fresh checkout it would prove each one below its crate first.

What comes of a part is how much passed, how much failed, and what is said of that. The last line, `N passed, M failed`,
is the sum of all parts, and the status is 1 where something failed or didn't come to its count.
"""

import argparse
import random
import re
import sys
from concurrent.futures import ThreadPoolExecutor

import kit
from locks import LOCK, Edits, Record
from proofs import COUNT, LAST, SECONDS, UNKNOWN, lacking, prove
from quick import build_all, place, ran
from tree import TOP, crates_of, parsed, proved_crates, with_below

# The sample: how many crates, how many of their edits, and the seconds of a processor that the crates' proofs may take.
SAMPLE = (3, 20, 600)
# The free memory above which tests, and programs that they run, are built beside proofs.
BOTH = 16_000_000_000
# The program that the test builds, apart from the one that `make demo` or `make prove` left.
PROGRAM = TOP / "out" / "snapd"
# The programs that end-to-end tests run beside it, and the crates with tests, the highest, which read the most, first.
BESIDE = [it for it in crates_of(TOP) if it.startswith("try_") and it != "try_bench"]
WITH_TESTS = {it.relative_to(TOP).parts[1] for it in TOP.glob("crates/*/src/**/*.rt") if "#[test]" in it.read_text()}
TESTED = [it for it in reversed(crates_of(TOP)) if it in WITH_TESTS]


def run_tests(script, *words):
    """Runs tests by a script of `tests/`, which ends with their count."""
    status, lines = ran([sys.executable, TOP / "tests" / script, *words], lambda it: print(it, flush=True), stderr=None)
    count = COUNT.fullmatch(lines[-1]) if lines else None
    passed, failed = map(int, count.groups()) if count else (0, 1)
    failed = max(failed, 1) if status else failed
    return passed, failed, lines[-LAST:] if failed else []


def build_and_run(lanes):
    """Builds the program, those beside it and the crates' tests, each without proofs, and runs these tests."""
    failed = build_all(["snapd", *BESIDE, *TESTED], lanes, lambda it: PROGRAM if it == "snapd" else place(it))
    return [(0, len(failed), failed), run_tests("crates.py", *TESTED)]


def drawn(names, edits, crates, seconds, missing, seed, most):
    """A sample of these crates, drawn anew with each seed: `most[0]` of them at most, and `most[1]` of their edits.
    Their proofs, with what is below them and isn't at hand, take `most[2]` seconds of a processor in all, at most."""
    draw, chosen = random.Random(seed), []
    for name in draw.sample(sorted(names), len(names)):
        owed = with_below(crates, [*chosen, name]) & {*missing, *chosen, name}
        if len(chosen) < most[0] and sum(seconds.get(it) or UNKNOWN for it in owed) <= most[2]:
            chosen.append(name)
    found = sorted(it for it in edits if it[0] in chosen)
    return chosen, draw.sample(found, min(most[1], len(found)))


def prove_some(words):
    """Proves what is to be proved, and tries edits; what came of each. The kit proves a crate from nothing before it
    tries two edits or more; one of the sample with fewer isn't taken from the archive."""
    record, edits, crates, proved = Record.of(TOP), Edits.of(TOP), crates_of(TOP), proved_crates(TOP)
    print(record.told(), edits.told(), sep="\n", flush=True)
    owed, new, said = with_below(crates, proved if words.all else record.missing()), edits.missing(), []
    if words.all:
        said = [f"{LOCK} doesn't have {it} as it is: make prove writes it" for it in record.missing()]
        said += [f"must-fail.lock doesn't have {edits.name(it)} as it is: make edits tries it" for it in new]
        new = []
    missing = {*(proved if words.fresh else lacking(TOP))} - owed
    # (the program's proof takes all processors)
    names, chosen = drawn({*proved} - {"snapd"}, edits.known(), crates, SECONDS, missing, words.seed, SAMPLE)
    print(f"sample: {', '.join(names) or 'no crate'}, with {len(chosen)} edits (seed {words.seed})", flush=True)
    anew = ["--anew"] if words.fresh else [it for it in names if [edit[0] for edit in chosen].count(it) < 2]
    return [(0, len(said), said), *prove({*owed, *names}, edits, [*new, *chosen], anew, ["snapd"] * words.all)[1]]


def test_all(words, lanes):
    """Builds and runs the tests of crates, and proves beside that, and then runs the end-to-end tests."""
    with ThreadPoolExecutor(lanes) as pool:
        tests, proofs = pool.submit(build_and_run, 4 // lanes), pool.submit(prove_some, words)
    program = place("snapd") if words.all else PROGRAM
    return [*tests.result(), *proofs.result(), run_tests("run.py", "--program", program)]


def prove_all(words, lanes):
    """Proves everything, and builds beside that what end-to-end tests run, and runs them; or proves these programs."""
    anew, edits = ["--anew" if words.fresh else "--over"], Edits.of(TOP)
    if words.names:
        return prove(words.names, edits, [], anew, words.names)[1]
    with ThreadPoolExecutor(lanes) as pool:
        proofs = pool.submit(prove, proved_crates(TOP), edits, edits.missing(), anew, ["snapd"])
        pool.submit(build_all, BESIDE)
    seconds, parts = proofs.result()
    if parts[0][1]:
        return parts
    # Every crate is on record as it is now.
    record, readme = Record.of(TOP), TOP / "README.md"
    record.take(seconds)
    record.write(TOP)
    readme.write_text(re.sub(rf"^`{LOCK}: .*`$", f"`{record.told()}`", readme.read_text(), flags=re.M))
    print(record.told(), edits.told(), sep="\n", flush=True)
    # (a proved program leaves processors idle where each has a test)
    return [*parts, run_tests("run.py", "--program", place("snapd"), "--jobs", str(kit.load().processors() + 2))]


def try_edits(words):
    """Tries edits alone, over what `rt check` proved of their crates in this checkout, or else from nothing."""
    edits = Edits.of(TOP)
    wanted = edits.digests if words.all else edits.missing()
    chosen = [it for it in wanted if not words.names or it[0] in words.names]
    parts = prove([], edits, chosen, ["--over"])[1] if chosen else []
    print(edits.told())
    return parts


def main():
    words = argparse.ArgumentParser(description="Runs every test, proves what isn't on record and a sample of what is.")
    words.add_argument("--prove", action="store_true", help="prove everything, and record it, in place of the test")
    words.add_argument("--edits", action="store_true", help="try must-fail edits alone, and record them")
    words.add_argument("--all", action="store_true", help="every crate, proved now or by an earlier run; every edit")
    words.add_argument("--fresh", action="store_true", help="take nothing from this machine's archive of proofs")
    words.add_argument("--seed", type=int, default=random.SystemRandom().randrange(10**9), help="of the sample")
    words.add_argument("--lay", action="store_true", help="lay the libraries that this machine has proved")
    words = parsed(words, "programs that are proved alone, or crates whose edits are tried")
    if words.lay:
        print("these libraries weren't proved here:", ", ".join(lacking(TOP, is_laid=True)) or "none")
        return 0
    lanes = 2 if kit.load().free() > BOTH else 1
    every = prove_all if words.prove else test_all
    parts = try_edits(words) if words.edits else every(words, lanes)
    print(*(line for _, failed, lines in parts if failed for line in lines), sep="\n")
    passed, failed = (sum(it[at] for it in parts) for at in (0, 1))
    print(f"{passed} passed, {failed} failed")
    return 1 if failed else 0


if __name__ == "__main__":
    sys.exit(main())
