"""Runs the end-to-end tests on the built program: every function `test_*` of the files `test_*.py` beside this one.

    python3 tests/run.py [--program bin/snapd] [--only WORD] [--seed N] [--jobs N]

Each test gets a fresh folder. As many run side by side as there are processors. A test that can't run here (no root, no
strace) says so in a line of its own and counts as neither passed nor failed. The last line is `N passed, M failed`; the
status is 1 where one failed.

The tests know the file format and the commands (docs/FORMATS.md) and nothing of the code or its proof.
"""

import argparse
import importlib
import json
import os
import pathlib
import queue
import random
import shutil
import signal
import subprocess
import sys
import tempfile
import threading
import time
import traceback

sys.dont_write_bytecode = True
HERE = pathlib.Path(__file__).resolve().parent
sys.path.insert(0, str(HERE))

from program import Program, Skipped  # noqa: E402

# How much of a failed test's output is printed again at the end, in characters.
LAST = 400
# The files whose tests take longest, which begin first.
LONG = (
    "test_plug", "test_serve_kills", "test_crashes", "test_clients_serve", "test_readme", "test_recipes",
    "test_serve_memory",
)


def tests_in(only):
    """The tests, by module and name, those of long files first."""
    found = []
    for path in sorted(HERE.glob("test_*.py"), key=lambda it: (it.stem not in LONG, it.stem)):
        module = importlib.import_module(path.stem)
        names = [it for it in vars(module) if it.startswith("test_")]
        found += [(path.stem, it) for it in names if only in f"{path.stem}.{it}"]
    return found


def run(test, program, seed):
    """What came of a test: `passed`, `skipped` or `FAILED`, and what it said."""
    folder = pathlib.Path(tempfile.mkdtemp(prefix="snapd-test-"))
    try:
        test(program.at(folder), random.Random(seed))
        return "passed", ""
    except Skipped as why:
        return "skipped", str(why)
    except Exception:
        return "FAILED", traceback.format_exc()
    finally:
        shutil.rmtree(folder, ignore_errors=True)


def work(program, seed):
    """Runs the tests that standard input names, a line each, and answers each with a line."""
    # A job in a shell's background ignores an interrupt, and would hand that on to the programs under test.
    signal.signal(signal.SIGINT, signal.default_int_handler)
    # Tests and the programs that they start have other streams than the runner.
    lines, answers = os.fdopen(os.dup(0)), os.fdopen(os.dup(1), "w")
    nothing = os.open(os.devnull, os.O_RDONLY)
    os.dup2(nothing, 0)
    os.close(nothing)
    os.dup2(2, 1)
    for line in lines:
        module, name = line.split()
        test = getattr(importlib.import_module(module), name)
        print(json.dumps(run(test, program, seed)), file=answers, flush=True)


class Worker:
    """A process that runs one test at a time. One that a test has ended is made anew."""

    def __init__(self, words):
        self.words, self.process = [sys.executable, __file__, "--work", *words], None

    def run(self, module, name):
        if self.process is None:
            self.process = subprocess.Popen(self.words, stdin=subprocess.PIPE, stdout=subprocess.PIPE, text=True)
        try:
            self.process.stdin.write(f"{module} {name}\n")
            self.process.stdin.flush()
            return json.loads(self.process.stdout.readline())
        except (OSError, ValueError):
            status, self.process = self.process.wait(), None
            return "FAILED", f"it ended the process that ran it, with status {status}"

    def end(self):
        if self.process is not None:
            self.process.stdin.close()
            self.process.wait()


class Count:
    """What came of all tests."""

    def __init__(self):
        self.passed, self.failures, self.printing = 0, [], threading.Lock()

    def take(self, name, outcome, said, seconds):
        with self.printing:
            if outcome == "passed":
                self.passed += 1
                print(f"passed {name} ({seconds:.1f} s)", flush=True)
                return
            print(f"{outcome} {name}: {said}", flush=True)
            if outcome == "FAILED":
                self.failures.append(f"FAILED {name}: {said.strip()[-LAST:]}")


def run_all(waiting, words, count):
    """Runs tests until none waits."""
    worker = Worker(words)
    while True:
        try:
            module, name = waiting.get_nowait()
        except queue.Empty:
            worker.end()
            return
        began = time.monotonic()
        count.take(f"{module}.{name}", *worker.run(module, name), time.monotonic() - began)


def main():
    words = argparse.ArgumentParser(description="Runs the end-to-end tests.")
    words.add_argument("--program", default=str(HERE.parent / "bin" / "snapd"))
    words.add_argument("--only", default="")
    words.add_argument("--seed", type=int, default=20261122)
    words.add_argument("--jobs", type=int, default=len(os.sched_getaffinity(0)))
    words.add_argument("--work", action="store_true", help=argparse.SUPPRESS)
    words = words.parse_args()
    if words.work:
        return work(Program(words.program), words.seed)
    print(f"seed {words.seed}")
    waiting, count = queue.Queue(), Count()
    for it in tests_in(words.only):
        waiting.put(it)
    handed_on = ["--program", words.program, "--seed", str(words.seed)]
    lanes = [threading.Thread(target=run_all, args=(waiting, handed_on, count)) for _ in range(words.jobs)]
    for it in lanes:
        it.start()
    for it in lanes:
        it.join()
    # Once more at the end, where a reader of a long log begins.
    print(*count.failures, f"{count.passed} passed, {len(count.failures)} failed", sep="\n")
    return 1 if count.failures or not count.passed else 0


if __name__ == "__main__":
    sys.exit(main())
