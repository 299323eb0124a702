"""Says which functions of a crate are dear to prove, by what `rt check` left behind, and which goals of a function.

    cd crates/NAME && rm -rf out/incremental && rt check --jobs 1; python3 ../../bench/proof_seconds.py [FOLDER]

prints the crate's seconds, and for each of its dearest functions what its parts took: `Lts` grows with the branches of
its code and with what is dropped on each way out, `Proof` is the search, `Answers` what its proof files say. The times
are those between two files that the prover wrote, so they are right only after a check from nothing, by one job.

    cd crates/NAME && python3 ../../bench/proof_seconds.py --goals store::open_all

checks this function alone, and prints the seconds of its dearest goals. A goal without an answer is searched for first,
and left to `grind` where nothing is found: where that takes long, the answer `grind (arith, common_steps)` may not.
"""

import argparse
import os
import pathlib
import re
import subprocess
import time
from collections import Counter, defaultdict

# What a file is of: a function by its path, and one of its parts.
PART = re.compile(r"(?:proofs|specs|declared)\.(?:TheLinks?\.)?(.+)\.(Lts|Proof|Tie|Answers)(?:\.decls)?\.oantt$")
MOST = 25

# What the prover prints as it begins with a goal, or with anything else.
BEGUN = re.compile(r"antt: cache: (?:\S+-proofs\.(\S+)\.(Proof|Answers): (\S+):)?")


def main():
    words = argparse.ArgumentParser(description="Says which functions of a crate are dear to prove, or which goals.")
    words.add_argument("folder", nargs="?", default=".", type=pathlib.Path, help="of the crate")
    words.add_argument("--goals", metavar="FUNCTION", help="those of this function, as rt check --only names it")
    words = words.parse_args()
    if words.goals:
        return print_goals(words.folder, words.goals)
    left = words.folder / "out" / "incremental"
    written = sorted((it.stat().st_mtime, it.name) for it in left.rglob("*.oantt"))
    if not written:
        raise SystemExit(f"{left} has nothing that a check left: run rt check --jobs 1 in the crate first")
    parts = defaultdict(Counter)
    for (before, _), (after, name) in zip(written, written[1:]):
        found = PART.search(name)
        function, part = found.groups() if found else ("all else", "files")
        parts[function][part] += after - before
    print(f"{written[-1][0] - written[0][0]:.0f} s in all")
    in_all = {function: sum(took.values()) for function, took in parts.items()}
    for function in sorted(in_all, key=in_all.get, reverse=True)[:MOST]:
        told = ", ".join(f"{part} {it:.1f}" for part, it in parts[function].most_common())
        print(f"{in_all[function]:6.1f} {function} ({told})")


def print_goals(folder, function):
    path = function.replace("::", ".")
    for part in ("Proof", "Answers"):
        for it in (folder / "out" / "incremental").rglob(f"*-proofs.{path}.{part}.*"):
            it.unlink()
    words, env = ["rt", "check", "--jobs", "1", "--only", function], {**os.environ, "ANTT_CACHE_DEBUG": "1"}
    run = subprocess.Popen(words, cwd=folder, env=env, stdout=subprocess.PIPE, stderr=subprocess.STDOUT, text=True)
    took, goal, began, line = Counter(), None, time.monotonic(), ""
    for line in run.stdout:
        if begun := BEGUN.match(line):
            now = time.monotonic()
            if goal:
                took[goal] += now - began
            goal, began = f"{begun[3]} ({begun[2]})" if begun[1] == path else None, now
    for goal, seconds in took.most_common(MOST):
        print(f"{seconds:6.1f} {goal}")
    if run.wait():
        raise SystemExit(line.rstrip())


if __name__ == "__main__":
    main()
