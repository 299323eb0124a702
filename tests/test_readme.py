"""What the README shows is what happens: its first commands, and the job of docs/RECIPES.md,
killed at random moments."""

import contextlib
import fcntl
import os
import pathlib
import re
import signal
import subprocess

from serving import free_port
from waiting import PATIENCE, gets_on, moment, wait_until

TOP = pathlib.Path(__file__).resolve().parent.parent
README, RECIPES = ((TOP / name).read_text() for name in ("README.md", "docs/RECIPES.md"))


# The examples: each fence that opens one, with its language or none, is paired with the one that ends it.
EXAMPLES = re.findall(r"^```\w*\n(.*?)^```$", README, re.S | re.M)


def test_first_job_of_a_build(snapd, _):
    words = ["sh", TOP / "tests" / "demo.sh", snapd.path]
    run = subprocess.run(words, cwd=snapd.folder, capture_output=True, text=True, timeout=PATIENCE)
    assert run.returncode == 0 and "\nstored 1\n" in run.stdout, run


def test_readme_script_prints_what_it_shows(snapd, random):
    block = next(it for it in EXAMPLES if "snapd script" in it)
    command, _, printed = block.removeprefix("$ ").rpartition("| tail -n 1\n")
    env = {**os.environ, "PATH": f"{pathlib.Path(snapd.path).parent}:{os.environ['PATH']}"}
    run = subprocess.run(
        f"{command} | tail -n 1", shell=True, cwd=snapd.folder, env=env, capture_output=True, text=True
    )
    assert (run.stdout, run.stderr) == (printed, ""), run


def test_server_of_the_readme_survives_its_kill(snapd, random):
    """The commands of the server's story in one shell, each printing what the README shows after it. The port is a free
    one."""
    block = next(it for it in EXAMPLES if "$ snapd serve" in it)
    commands, printed = [], ""
    for line in block.splitlines():
        if line.startswith("$ "):
            commands.append(line.removeprefix("$ "))
        else:
            printed += line + "\n"
    assert len(commands) == 6 and sum(it.startswith("snapd serve") for it in commands) == 2
    port = free_port()
    assert all(it.endswith(" &") for it in commands if it.startswith("snapd serve"))
    story = "\n".join([*commands, "kill $!", ""]).replace("7070", str(port))
    env = {**os.environ, "PATH": f"{pathlib.Path(snapd.path).parent}:{os.environ['PATH']}"}
    run = subprocess.run(
        ["sh", "-c", story], cwd=snapd.folder, env=env, capture_output=True, text=True, timeout=2 * PATIENCE
    )
    # A shell may say that the first server was killed.
    assert (run.returncode, run.stdout) == (0, printed), run


def wait_for_lock(file):
    """A killed command ends a moment later where it was in a call of the disk, and its lock ends with it."""
    with open(file, "rb") as holder:
        def has_ended():
            try:
                fcntl.flock(holder, fcntl.LOCK_EX | fcntl.LOCK_NB)
                return True
            except BlockingIOError:
                return False

        wait_until(has_ended, "the end of a killed job's lock")


class Job:
    """The job of the recipes in a process group of its own. Its steps note themselves in the file `done`."""

    def __init__(self, snapd):
        (snapd.folder / "job").write_text(re.search(r"```sh\n(#!/bin/sh\n# job\.sh:.*?)```", RECIPES, re.S)[1])
        step = snapd.folder / "do_step"
        step.write_text("#!/bin/sh\necho $1 >> done\n")
        step.chmod(0o755)
        self.done, self.file = snapd.file("done"), snapd.file("state") / "segment-00.seg"
        env = {**os.environ, "PATH": f"{pathlib.Path(snapd.path).parent}:{os.environ['PATH']}"}
        self.run = subprocess.Popen(["sh", "./job"], cwd=snapd.folder, env=env, start_new_session=True,
                                    stdin=subprocess.DEVNULL, stdout=subprocess.PIPE, stderr=subprocess.STDOUT)

    def steps(self):
        return [int(it) for it in self.done.read_text().split()] if self.done.exists() else []

    def has_ended(self):
        return self.run.poll() is not None

    def kill(self):
        """Kills all that it started. They have ended when this returns, since its output is closed."""
        with contextlib.suppress(ProcessLookupError):
            os.killpg(self.run.pid, signal.SIGKILL)
        self.run.communicate()
        if self.file.exists():
            wait_for_lock(self.file)


def test_job_of_the_recipes_restarts_where_it_was(snapd, random):
    """It is killed while it starts, then each time once it has done some more steps; at last it ends by itself."""
    for life in range(60):
        job = Job(snapd)
        try:
            if life < 10:
                # These end inside a format, or before their first step.
                moment(random, 0.002 * life)
            elif life < 50:
                gets_on(lambda: len(job.steps()), random.randrange(5), job.has_ended)
                moment(random, 0.01)
            else:
                job.run.communicate(timeout=10 * PATIENCE)
            if job.has_ended():
                assert job.run.returncode == 0, job.run.returncode
                break
        finally:
            job.kill()
    else:
        raise AssertionError("the job never ended")
    steps = job.steps()
    twice = [b for a, b in zip(steps, steps[1:]) if a == b]
    assert sorted(set(steps)) == list(range(1, 101)), steps
    assert steps == sorted(steps) and len(steps) == 100 + len(twice), steps
    assert snapd("get", "state/segment-00.seg").gave(0, "100")
