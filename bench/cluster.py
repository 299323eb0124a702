"""Three hosts with the volume of docs/REPLICATION.md, made by the listings there, and its unit on each."""

import concurrent.futures
import os
import pathlib
import re
import shlex
import sys
import time

from hosts import FLOATING, PATIENCE, Host, Unit, command, comes_true, make_network
from onlookers import TOP, Job, Onlookers, Record, Scanner, Writer

sys.path.insert(0, str(TOP / "tests"))

import segment_file as layout  # noqa: E402

PORT = 7070
# What a run can leave out of the recipe, to see what it is there for: the listing, what is replaced in it, and by what.
PARTS = {
    "strict-locks": ("volume.sh", "client.strict-locks on ", "client.strict-locks off "),
    "sync": ("fstab", " ext4 sync ", " ext4 defaults "),
    "direct-io": ("fstab", "direct-io-mode=enable", "direct-io-mode=disable"),
    "settle": ("takeover.py", "    settle(path)", "    pass"),
    "silence": ("takeover.py", "SILENCE = 3.0", "SILENCE = 3_000.0"),
}
LISTING = r"^```\w+\n((?:#![^\n]*\n)?# (?:\S*/)?(%s)\b.*?)^```$"


def listings(without):
    """The recipe's texts by name, less the parts that are left out."""
    recipe = (TOP / "docs" / "REPLICATION.md").read_text()
    found = {name: re.search(LISTING % re.escape(name), recipe, re.S | re.M)[1]
             for name in ("volume.sh", "fstab", "files.sh", "takeover.py", "snapd-board-takeover.service")}
    for part in without:
        name, old, new = PARTS[part]
        if old not in found[name]:
            raise ValueError(f"{name} of docs/REPLICATION.md has no {old!r}")
        found[name] = found[name].replace(old, new)
    return found


class Cluster:
    """The hosts, their units, and clients beside them. `folder` is this run's own."""

    def __init__(self, folder, program, rng, without=()):
        self.folder, self.rng = folder, rng
        self.texts = listings(without)
        self.tools = folder / "tools"
        self.tools.mkdir()
        (self.tools / "snapd").symlink_to(program)
        for name, text in self.texts.items():
            (self.tools / name).write_text(text)
        os.environ["PATH"] = f"{self.tools}:{os.environ['PATH']}"
        make_network()
        self.hosts = [Host(number, folder, self.mount("/srv/brick")[3]) for number in (1, 2, 3)]
        self.log = open(folder / "units.log", "ab")
        start, stop = (re.search(rf"^{key}=-?/\S+ (.*)$", self.texts["snapd-board-takeover.service"], re.M)[1].split()
                       for key in ("ExecStart", "ExecStopPost"))
        self.files = [word for word in start if word.endswith(".seg")]
        script = "cd /srv/snapd && exec python3 -u " + shlex.join([str(self.tools / "takeover.py"), *start[1:]])
        self.units = [Unit(host, ["sh", "-c", script], ["ip", *stop], self.log) for host in self.hosts]
        self.onlookers = self.record = None

    # ---- up ----

    def make(self):
        first, *_ = self.hosts
        for host in self.hosts:
            host.make()
            host.boot()
        at_once(lambda host: host.run("glusterd"), self.hosts)
        comes_true("glusterd", lambda: all(host.run("gluster pool list") for host in self.hosts), pause=0.5)
        first.run(shlex.join(["sh", str(self.tools / "volume.sh"), *(host.address for host in self.hosts)]))
        self.mount_all()
        first.run(shlex.join(["sh", str(self.tools / "files.sh")]))
        self.serve()

    def mount(self, folder):
        """The words of the line of /etc/fstab for this folder."""
        return next(words for words in map(str.split, self.texts["fstab"].splitlines()) if words[1] == folder)

    def mount_all(self):
        device, folder, kind, options, *_ = self.mount("/srv/snapd")
        options = options.replace("_netdev,", "")
        script = f"mountpoint -q {folder} || mount -t {kind} -o {options} {device} {folder}; ls {folder}"
        at_once(lambda host: comes_true("the volume", lambda: host.run(script) is not None, pause=0.2), self.hosts)

    def boot_all(self):
        """After all hosts were killed: what their units do when they start."""
        for host in self.hosts:
            host.boot()
        at_once(lambda host: host.run("glusterd"), self.hosts)
        self.mount_all()
        for unit in self.units:
            unit.enable()

    def serve(self):
        for unit in self.units:
            unit.enable()
        self.server()

    def serving(self):
        """The unit whose server listens now."""
        for unit in self.units:
            said = [line for _, line in unit.lines[-20:]]
            if unit.process is not None and any(line.startswith("listening") for line in said[_behind(said, "ended"):]):
                return unit
        return None

    def server(self):
        """The same, as soon as there is one."""
        self.wait("a server", lambda: self.serving() is not None)
        return self.serving()

    def listened(self, since):
        """When a server began to listen, the first time since then, and whose it is."""
        found = [(when, unit) for unit in self.units for when, line in unit.lines
                 if line.startswith("listening") and when > since]
        return min(found, default=(None, None), key=lambda it: it[0])

    # ---- time ----

    def turn(self):
        for unit in self.units:
            unit.turn()
        if self.onlookers is not None:
            self.onlookers.look()

    def wait(self, what, has_come, patience=PATIENCE):
        until = time.monotonic() + patience
        while not has_come():
            if time.monotonic() > until:
                raise TimeoutError(f"{what} hasn't come after {patience} seconds")
            self.turn()
            time.sleep(0.02)

    def rest(self, longest, least=0.0):
        until = time.monotonic() + self.rng.uniform(least, longest)
        self.wait("a moment", lambda: time.monotonic() >= until)

    # ---- clients ----

    def begin(self):
        """New clients with a new record: a writer for each segment, of which the first one is a job, and scanners. The
        last writer and the last scanner are those that move."""
        self.record = Record(self.entries(), self.rng)
        place = (self.record, "outside", (FLOATING, PORT))
        self.job = Job(0, *place)
        self.writers = [Writer(segment, *place) for segment in range(1, len(self.files))]
        self.scanners = [Scanner(*place) for _ in range(3)]
        self.onlookers = Onlookers(self.writers + self.scanners, self.job)
        self.onlookers.start()
        self.wait("an update", lambda: self.record.acknowledged.get("outside"))

    def end(self):
        self.onlookers.stop()
        self.onlookers = None

    def entries(self):
        """The pairs of number and value of all segments, by a scan."""
        record = Record([(0, b"")] * len(self.files), self.rng)
        onlookers = Onlookers([Scanner(record, "outside", (FLOATING, PORT))])
        onlookers.start()
        self.wait("a scan", lambda: record.scans)
        onlookers.stop()
        return record.scans[0].entries

    def acknowledged(self, since):
        """How many updates were acknowledged since then, outside of hosts."""
        return sum(when > since for when in self.record.acknowledged.get("outside", [])[-1_000:])

    # ---- copies ----

    def copies(self, file):
        return [pathlib.Path(host.disk / "brick" / "snapd" / file).read_bytes() for host in self.hosts]

    def gates(self):
        """How many gates are open in one copy and closed in another."""
        places = [layout.gate_at(slot) for slot in range(layout.NOW.slots)]
        return sum(len({copy[at] for copy in copies}) > 1 for copies in map(self.copies, self.files) for at in places)

    def is_healed(self):
        """No copy is known to lack anything."""
        for host in self.hosts:
            for file in [*self.files, "serving"]:
                path = host.disk / "brick" / "snapd" / file
                names = [name for name in os.listxattr(path) if name.startswith("trusted.afr.snapd-client-")]
                if any(any(os.getxattr(path, name)) for name in names):
                    return False
        return True

    def is_settled(self):
        """All copies of each file are the same, byte for byte."""
        return self.is_healed() and all(len(set(self.copies(file))) == 1 for file in self.files)


def at_once(work, hosts):
    """Does this work for all hosts side by side, and raises what one of them raised."""
    with concurrent.futures.ThreadPoolExecutor(len(hosts)) as lanes:
        list(lanes.map(work, hosts))


def _behind(said, word):
    """The place after the last such line."""
    return max((at + 1 for at, line in enumerate(said) if line == word), default=0)


def brick_of(host):
    """The process of this host's copy."""
    return int(host.run("cat /run/gluster/vols/snapd/*.pid"))


def start_brick(host):
    command(*host.inside("gluster", "--mode=script", "volume", "start", "snapd", "force"))
