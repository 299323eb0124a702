"""What is done to the hosts in a round, by kind, and what is measured of it."""

import contextlib
import statistics
import subprocess
import time

from cluster import brick_of, start_brick
from hosts import kill_inside
from onlookers import Wrong

# A program that holds a file's lock and writes it, by the system's calls alone, for as long as it lives. It tries its
# lock as snapd does, and ends by itself never: so what keeps it from writing is the volume, and not the recipe's
# script.
WITNESS = """
import fcntl, os, time
os.chdir("/srv/snapd")
file = os.open("witness", os.O_RDWR | os.O_CREAT)
def say(*words):
    print(time.monotonic(), *words, flush=True)
while True:
    try:
        fcntl.flock(file, fcntl.LOCK_EX | fcntl.LOCK_NB)
        break
    except OSError:
        time.sleep(0.02)
say("locked")
while True:
    try:
        os.pwrite(file, b"%.6f" % time.monotonic(), 0)
        os.fdatasync(file)
        say("wrote")
    except OSError as fault:
        say("failed", fault.errno)
    time.sleep(0.02)
"""
EBADFD = 77


class Figures:
    """Times of rounds by what they are of, and counts."""

    def __init__(self):
        self.times, self.counts = {}, {}

    def took(self, what, seconds):
        self.times.setdefault(what, []).append(seconds)

    def count(self, what, more=1):
        self.counts[what] = self.counts.get(what, 0) + more

    def show(self):
        for what, seconds in self.times.items():
            least, middle, most = min(seconds), statistics.median(seconds), max(seconds)
            print(f"  {what:<64} median {middle:6.2f} s   {least:6.2f} to {most:6.2f}   of {len(seconds)}")
        for what, count in self.counts.items():
            print(f"  {what:<64} {count}", flush=True)


def stood_still(cluster, since):
    """The longest time between two acknowledged updates, outside of hosts, from the last one before then on."""
    times = list(cluster.record.acknowledged["outside"])
    first = max((at for at, when in enumerate(times) if when <= since), default=0)
    return max((later - earlier for earlier, later in zip(times[first:], times[first + 1 :])), default=0.0)


def goes_on(cluster, since, count=30):
    cluster.wait("an update", lambda: cluster.acknowledged(since) >= count)


def restored(cluster, figures, since):
    """Once a copy is back, the unit starts its server anew, so that it opens its files on all three."""
    cluster.wait("a new start", lambda: cluster.listened(since)[0])
    when, _ = cluster.listened(since)
    goes_on(cluster, when)
    figures.took("started anew since a copy was back: updates stood still", stood_still(cluster, when - 1.0))
    cluster.wait("the copies", cluster.is_healed)
    figures.took("from then until all copies were whole", time.monotonic() - since)


def brick(cluster, figures):
    """A copy's process is killed and started again."""
    cluster.rest(1.5, 0.1)
    host = cluster.rng.choice(cluster.hosts)
    began = time.monotonic()
    host.run(f"kill -9 {brick_of(host)}")
    goes_on(cluster, began)
    cluster.rest(2)
    goes_on(cluster, time.monotonic())
    figures.took("updates stood still", stood_still(cluster, began))
    back = time.monotonic()
    start_brick(host)
    restored(cluster, figures, back)


def server(cluster, figures):
    """The server is killed, and another host takes over."""
    cluster.rest(1.5, 0.1)
    old = cluster.server()
    began = time.monotonic()
    old.kill()
    cluster.wait("a server", lambda: cluster.listened(began)[0])
    when, unit = cluster.listened(began)
    goes_on(cluster, when)
    figures.took("until another server listened", when - began)
    figures.took("updates stood still", stood_still(cluster, began))
    figures.count("on another host" if unit is not old else "on the same host")


def cut(cluster, figures):
    """The host that serves is cut off from the others, with a writer and a scanner on it; later it is back."""
    old = cluster.server()
    writer, scanner = cluster.writers[-1], cluster.scanners[-1]
    for client in (writer, scanner):
        client.move(old.host.name, old.host.network)
    asked = time.monotonic()
    said = cluster.record.acknowledged.setdefault(old.host.name, [])
    cluster.wait("an update on the host", lambda: said and said[-1] > asked)
    with witnesses(cluster, old.host) as found:
        cluster.rest(1.5)
        old.host.cut()
        began = time.monotonic()
        cluster.rest(1.0, 1.0)
        figures.count("gates that differed between the copies", cluster.gates())
        cluster.wait("a server", lambda: cluster.listened(began)[0])
        when, unit = cluster.listened(began)
        goes_on(cluster, when)
        figures.took("until another server listened", when - began)
        figures.took("updates stood still", stood_still(cluster, began))
        figures.count("on another host" if unit is not old else "on the same host")
        cluster.rest(1.5)
        judge_cut_off(cluster, figures, old.host, began)
        back = time.monotonic()
        old.host.join()
        judge_witnesses(cluster, figures, *found, began)
    for client in (writer, scanner):
        client.move("outside")
    restored(cluster, figures, back)


def judge_cut_off(cluster, figures, host, began):
    """The replies to clients on the host that is cut off. Only requests that were under way may still be answered."""
    for what, told in (("an update", cluster.record.acknowledged), ("a scan", cluster.record.shown)):
        late = [when - began for when in told.get(host.name, []) if when > began]
        figures.took(f"on the host that was cut off, {what} was last answered after", max(late, default=0.0))
    if any(when > began + 0.5 for when in cluster.record.acknowledged.get(host.name, [])):
        raise Wrong(f"{host.name} acknowledged an update while it was cut off")


@contextlib.contextmanager
def witnesses(cluster, host):
    """Two programs on one file: one holds its lock, on this host, and another one waits for it, elsewhere."""
    other = cluster.rng.choice([it for it in cluster.hosts if it is not host])
    logs = [cluster.folder / "witness-holder", cluster.folder / "witness-rival"]
    started = []
    try:
        for log, where in zip(logs, (host, other)):
            with open(log, "wb") as out:
                words = where.inside("python3", "-c", WITNESS)
                started.append(subprocess.Popen(words, stdin=subprocess.DEVNULL, stdout=out))
            if where is host:
                cluster.wait("the witness", lambda: b"wrote" in logs[0].read_bytes())
        yield logs
    finally:
        for process in started:
            kill_inside(process)


def events(log):
    """The lines of a witness: when, and what."""
    whole = log.read_text().rpartition("\n")[0].splitlines()
    return [(float(line.split()[0]), line.split()[1:]) for line in whole]


def judge_witnesses(cluster, figures, holder, rival, began):
    """The rival gets the lock. Once its host is back the holder is to find that its file is closed to it for good."""
    locked = lambda: [when for when, what in events(rival) if what == ["locked"]]  # noqa: E731
    cluster.wait("the rival's lock", locked)
    figures.took("the volume gave its lock to another host after", locked()[0] - began)
    both = lambda: any(when > locked()[0] and what == ["wrote"] for when, what in events(holder))  # noqa: E731
    closed = lambda: ["failed", str(EBADFD)] in [what for _, what in events(holder)]  # noqa: E731
    cluster.wait("the end of the holder", lambda: both() or closed())
    cluster.rest(1.0, 1.0)
    if both():
        raise Wrong("a host wrote by a lock that another one had got")
    figures.count("the one that had lost its lock could not write")


def every(cluster, figures):
    """All processes of all hosts are killed, host by host within a moment, and what their disks had not synced is
    lost."""
    cluster.rest(1.5, 0.2)
    began = time.monotonic()
    for host in cluster.hosts:
        host.kill()
    for unit in cluster.units:
        unit.disable()
    for host in cluster.hosts:
        host.cut_power()
    figures.count("gates that differed between the copies", cluster.gates())
    booted = time.monotonic()
    cluster.boot_all()
    figures.took("hosts, their volume and its mounts were up after", time.monotonic() - booted)
    cluster.wait("a server", lambda: cluster.listened(booted)[0])
    goes_on(cluster, cluster.listened(booted)[0])
    figures.took("updates stood still", stood_still(cluster, began))
    cluster.wait("the copies", cluster.is_healed)


KINDS = {"brick": brick, "server": server, "cut": cut, "all": every}
