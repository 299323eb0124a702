"""Runs the tests of the crates, as `verification/quick.py NAME` built each crate's.

    python3 tests/crates.py NAME ..

Each crate's tests run in a process of their own, outside the checkout and, if possible, as the user nobody, as the kit
runs them. The last line is `N passed, M failed`; the status is 1 where one failed, or a crate's tests have no count.
"""

import os
import pathlib
import re
import shutil
import subprocess
import sys
import tempfile
from concurrent.futures import ThreadPoolExecutor

sys.path.insert(0, str(pathlib.Path(__file__).resolve().parent.parent / "verification"))

import kit  # noqa: E402
from quick import place  # noqa: E402

# How long the tests of one crate may take each, in seconds.
LIMIT = "300"
RESULT = re.compile(r"^test result: \w+\. (\d+) passed; (\d+) failed", re.M)


def run(name):
    """Runs a crate's tests: how they ended, and what they printed."""
    if not place(name).is_file():
        return 1, f"it isn't built: python3 verification/quick.py {name}"
    rt = kit.load()
    drop = rt.drop_to_nobody() or []
    with tempfile.TemporaryDirectory(prefix="snapd-tests-") as room:
        program, data = pathlib.Path(room, name), pathlib.Path(room, "data")
        os.chmod(room, 0o711)
        shutil.copy(place(name), program)
        data.mkdir()
        if drop:
            os.chown(data, 65534, 65534)
        env = {"PATH": "/usr/local/bin:/usr/bin:/bin", "HOME": data, "TMPDIR": data, "LANG": "C.UTF-8"}
        how = {"cwd": data, "env": env, "stdin": subprocess.DEVNULL, "stdout": subprocess.PIPE}
        words = [*drop, rt.rtlib.RUNNER, "--seconds", LIMIT, program]
        ended = subprocess.run(words, stderr=subprocess.STDOUT, text=True, errors="replace", **how)
        return ended.returncode, ended.stdout


def judged(name, status, said):
    """How many of a crate's tests passed, and what is said of those that didn't. A run with no count has failed."""
    result = RESULT.search(said)
    passed, failed = map(int, result.groups()) if result else (0, 1)
    bad = [f"{name}: {it}" for it in said.split("\n") if it.endswith("FAILED")]
    return passed, (bad or [f"{name}: status {status}", *said.split("\n")[-12:]]) if status or failed else []


def main(names):
    # (on half of the processors: `make test` proves beside)
    with ThreadPoolExecutor(max(1, len(os.sched_getaffinity(0)) // 2)) as pool:
        came = [*pool.map(lambda it: judged(it, *run(it)), names)]
    for name, (passed, bad) in zip(names, came):
        print(f"tests of {name}: {passed} passed", *bad, sep="\n", flush=True)
    failed = sum(len(bad) for _, bad in came)
    print(f"{sum(passed for passed, _ in came)} passed, {failed} failed")
    return 1 if failed else 0


if __name__ == "__main__":
    sys.exit(main(sys.argv[1:]))
