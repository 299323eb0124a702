"""Tries `docs/REPLICATION.md` by its own listings: a server on a volume with three copies, while hosts fail.

    python3 bench/replicated.py [--rounds N] [--minutes M] [--only KIND].. [--program bin/snapd] [--seed N]
        [--folder FOLDER] [--without PART].. [--json FILE]

Three hosts are namespaces of this machine, each with a disk of its own (ext4 in a file), a GlusterFS server, the volume
mounted by FUSE, and the recipe's unit. Writers and scanners continue beside them; if the serving host is cut off, one
of each runs on it. Of each KIND there are N rounds (50), or as many as begin within M minutes, at random moments:

    brick    the process of one copy is killed, started again, and its copy healed
    server   the server is killed, and started on another host
    cut      the host that serves is cut off from the others, and joined again
    all      all processes of all hosts are killed at once, and what their disks hadn't synced is lost

The replies of all clients are judged by tests/oracle/histories.py, each kind as one history: nothing acknowledged is
lost, and nothing shown is taken back. Status 1 if that failed. `--without` leaves a part out of the recipe
(strict-locks, sync, direct-io, settle, silence), to see what it is there for.

It wants root, /dev/fuse and Debian's packages glusterfs-server, glusterfs-client, iproute2, iputils-arping and
e2fsprogs; where something is missing it says so in one line, and ends with status 4. All that it makes, but for the
files in FOLDER, lies in namespaces of its own and ends with it, however it ends.
"""

import argparse
import os
import pathlib
import random
import shutil
import signal
import subprocess
import sys
import tempfile
import time

TOP = pathlib.Path(__file__).resolve().parent.parent
sys.dont_write_bytecode = True
sys.path.insert(0, str(TOP / "bench"))

MISSING = 4
# What has to be on the path, with the package that has it.
COMMANDS = {
    "glusterd": "glusterfs-server", "gluster": "glusterfs-cli", "mount.glusterfs": "glusterfs-client", "ip": "iproute2",
    "arping": "iputils-arping", "mkfs.ext4": "e2fsprogs", "unshare": "util-linux", "nsenter": "util-linux",
    "setpriv": "util-linux", "mount": "mount",
}
NAMESPACES = ["--mount", "--net", "--pid", "--fork", "--kill-child", "--mount-proc"]
PART_NAMES, KIND_NAMES = ("strict-locks", "sync", "direct-io", "settle", "silence"), ("brick", "server", "cut", "all")


def missing(program):
    """What this machine lacks, in a few words each."""
    found = [] if os.geteuid() == 0 else ["root"]
    found += [path for path in ("/dev/fuse", "/dev/loop-control") if not os.path.exists(path)]
    found += [] if program.exists() else [f"{program} (make build)"]
    return found + [f"{name} (package {package})" for name, package in COMMANDS.items() if shutil.which(name) is None]


def words():
    parser = argparse.ArgumentParser(description="Tries a server on a volume with three copies, while hosts fail.")
    parser.add_argument("--rounds", type=int, default=50)
    parser.add_argument("--minutes", type=float, default=float("inf"))
    parser.add_argument("--only", choices=KIND_NAMES, action="append")
    parser.add_argument("--program", type=pathlib.Path, default=TOP / "bin" / "snapd")
    parser.add_argument("--seed", type=int, default=20261126)
    parser.add_argument("--folder", type=pathlib.Path)
    parser.add_argument("--without", choices=PART_NAMES, action="append", default=[])
    parser.add_argument("--json", metavar="FILE", type=pathlib.Path,
                        help="write the figures of all ways to this file, too")
    parser.add_argument("--inside", type=pathlib.Path, help=argparse.SUPPRESS)
    return parser.parse_args()


def show_round(kind, number, rounds, record, began):
    if number % 10 == 0 or number == rounds:
        print(f"{kind}: {number} rounds in {time.monotonic() - began:.0f} s, "
              f"{sum(map(len, record.acknowledged.values()))} updates acknowledged, {len(record.scans)} scans",
              flush=True)


def tried(cluster, kind, words, noted):
    """Whether all rounds of this kind passed. What was measured is kept in `noted`."""
    from histories import Wrong
    from hosts import Failed
    from rounds import KINDS, Figures

    figures, began, number = Figures(), time.monotonic(), 0
    cluster.begin()
    try:
        while number < words.rounds and time.monotonic() < began + 60 * words.minutes:
            number += 1
            KINDS[kind](cluster, figures)
            show_round(kind, number, words.rounds, cluster.record, began)
        cluster.end()
        cluster.record.judge()
        cluster.server().kill()
        cluster.wait("equal copies", cluster.is_settled)
        print(f"{kind}: {number} rounds passed. All was kept that was acknowledged or shown, and the copies are equal.")
        return True
    except (Wrong, Failed, OSError) as fault:
        print(f"{kind}: FAILED in round {number}: {type(fault).__name__}: {fault}")
        return False
    finally:
        figures.count("updates acknowledged", sum(map(len, cluster.record.acknowledged.values())))
        figures.count("scans", len(cluster.record.scans))
        figures.count("refused with 6, 8 or 13 and sent again", cluster.record.refusals)
        figures.count("calls of the Python client that no try answered", cluster.record.given_up)
        figures.show()
        for what, seconds in figures.times.items():
            noted.note(f"{kind}: {what}", "snapd on three hosts", seconds, "s")
        for what, count in figures.counts.items():
            noted.note(f"{kind}: {what}", "snapd on three hosts", [count], "count")


def inside(words):
    """In namespaces of its own, as their first process."""
    import figures
    from cluster import Cluster
    from hosts import Failed

    cluster = Cluster(words.inside, words.program.resolve(), random.Random(words.seed), words.without)
    print(f"seed {words.seed}" + "".join(f", without {part}" for part in words.without), flush=True)
    try:
        began = time.monotonic()
        cluster.make()
        print(f"three hosts, their volume and a server after {time.monotonic() - began:.0f} s", flush=True)
        noted = figures.Figures()
        passed = all(tried(cluster, kind, words, noted) for kind in words.only or KIND_NAMES)
        noted.write(words.json, words.inside, str(words.program.resolve()))
        return 0 if passed else 1
    except Failed as fault:
        print(f"a host failed: {fault}")
        return 1
    except KeyboardInterrupt:
        return 128 + signal.SIGINT


def main():
    given = words()
    if given.inside:
        return inside(given)
    if lacking := missing(given.program):
        print(f"replicated.py: not tried, since this machine lacks {', '.join(lacking)}", file=sys.stderr)
        return MISSING
    # `kill` ends it as Ctrl-C does: the folder is removed, and all other processes end with this one.
    signal.signal(signal.SIGTERM, lambda *_: sys.exit(128 + signal.SIGTERM))
    folder = pathlib.Path(tempfile.mkdtemp(prefix="snapd-hosts-", dir=given.folder))
    again = [sys.executable, __file__, *sys.argv[1:], "--inside", str(folder)]
    process = subprocess.Popen(["setpriv", "--pdeathsig", "KILL", "unshare", *NAMESPACES, *again])
    try:
        return process.wait()
    except KeyboardInterrupt:
        return 128 + signal.SIGINT
    finally:
        process.kill()
        process.wait()
        shutil.rmtree(folder, ignore_errors=True)


if __name__ == "__main__":
    sys.exit(main())
