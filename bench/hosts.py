"""Hosts that are namespaces of this machine: each has a network, a disk, mounts and processes of its own, and loses
them as a host does.

The process that makes them has to run in mount, network and process namespaces of its own (`unshare`), as its first
process: then all that was made here ends with it, however it ends, and nothing of the machine itself is touched.
"""

import contextlib
import ctypes
import fcntl
import os
import pathlib
import struct
import subprocess
import time

# The network between the hosts. The clients beside them have its first address, and whoever serves the last one.
CLIENTS, FLOATING = "10.77.0.100", "10.77.0.10"
# How long a command may take on a machine that has other work, in seconds.
PATIENCE = 300
# The first process of a host: it only waits, and buries what others leave.
INIT = "while :; do sleep 3600 & wait; done"
# What `ioctl` calls the end of an ext4 file system without a last word to its disk.
EXT4_IOC_SHUTDOWN, WITHOUT_ITS_LOG = 0x8004587D, struct.pack("I", 2)
CLONE_NEWNET = 0x40000000
NEVER = float("inf")


class Failed(Exception):
    """A command of the hosts ended otherwise than it should; the text has what it said."""


def command(*words, patience=PATIENCE):
    """What it printed, errors too."""
    with contextlib.suppress(subprocess.TimeoutExpired):
        run = subprocess.run(words, stdin=subprocess.DEVNULL, stdout=subprocess.PIPE, stderr=subprocess.STDOUT,
                             text=True, timeout=patience)
        if run.returncode == 0:
            return run.stdout
        raise Failed(f"{' '.join(words)}\n{run.stdout.strip()}")
    raise Failed(f"{' '.join(words)}: no end after {patience} seconds")


def comes_true(what, has_come, patience=PATIENCE, pause=0.1):
    """Waits until something has come true. A command of it that fails may be too early."""
    until, last = time.monotonic() + patience, ""
    while True:
        try:
            if has_come():
                return
        except Failed as fault:
            last = str(fault)
        if time.monotonic() > until:
            raise Failed(f"{what} hasn't come after {patience} seconds. {last}")
        time.sleep(pause)


def kill_inside(process):
    """Kills what runs on a host by this `nsenter`, which then buries it and ends. As an orphan of ours it would keep
    its host from ending."""
    for child in reversed(below(process.pid)):
        with contextlib.suppress(ProcessLookupError):
            os.kill(child, 9)
    process.wait()


def below(process):
    """All that a process and its children have started, as far as it isn't buried."""
    found = []
    with contextlib.suppress(OSError):
        for child in map(int, pathlib.Path(f"/proc/{process}/task/{process}/children").read_text().split()):
            found += [child, *below(child)]
    return found


def make_network():
    """The switch between the hosts. `/run` becomes this process's own, since `ip netns` keeps its names there."""
    command("mount", "--make-rprivate", "/")
    command("mount", "-t", "tmpfs", "none", "/run")
    os.mkdir("/run/netns")
    for words in ("link set lo up", "link add switch type bridge", f"address add {CLIENTS}/24 dev switch",
                  "link set switch up"):
        command("ip", *words.split())


class Host:
    """A host by its number, with its disk in a folder and the options that this is mounted with."""

    def __init__(self, number, folder, options):
        self.number, self.name, self.address = number, f"host{number}", f"10.77.0.{number}"
        self.disk, self.image = folder / self.name, folder / f"{self.name}.disk"
        self.options = options
        self.box = self.first = None

    # ---- making ----

    def make(self):
        self.disk.mkdir()
        command("truncate", "-s", "256M", str(self.image))
        command("mkfs.ext4", "-q", str(self.image))
        self.mount_disk()
        for name in ("brick", "glusterd", "log"):
            (self.disk / name).mkdir()
        command("ip", "netns", "add", self.name)
        command("ip", "link", "add", self.name, "type", "veth", "peer", "name", "eth0", "netns", self.name)
        command("ip", "link", "set", self.name, "master", "switch", "up")
        for words in ("link set lo up", f"address add {self.address}/24 dev eth0", "link set eth0 up"):
            command("ip", "-n", self.name, *words.split())

    def mount_disk(self):
        command("mount", "-o", f"loop,{self.options}", str(self.image), str(self.disk))

    def boot(self):
        """Starts it with what its disk holds. Its first process ends with this one."""
        words = (f"nsenter --net=/run/netns/{self.name}"
                 " unshare --mount --uts --pid --fork --kill-child --mount-proc sh -c")
        self.box = subprocess.Popen([*words.split(), INIT], stdin=subprocess.DEVNULL)
        comes_true("the first process", self._has_first, pause=0.01)
        # Nothing is made on the machine's own disk: what a host needs is mounted over folders that are there.
        self.run(f"hostname {self.name}; mount -t tmpfs none /run; mount -t tmpfs none /srv;"
                 " mkdir -p /run/gluster /srv/brick /srv/snapd;"
                 f" mount --bind {self.disk}/glusterd /var/lib/glusterd;"
                 f" mount --bind {self.disk}/log /var/log/glusterfs;"
                 f" mount --bind {self.disk}/brick /srv/brick")

    def _has_first(self):
        found = pathlib.Path(f"/proc/{self.box.pid}/task/{self.box.pid}/children").read_text().split()
        if found and pathlib.Path(f"/proc/{found[0]}/comm").read_text() == "sh\n":
            self.first = int(found[0])
        return self.first is not None

    # ---- work ----

    def inside(self, *words):
        """The words of a command that runs on this host."""
        return ["nsenter", "-t", str(self.first), "-m", "-n", "-u", "-p", *map(str, words)]

    def run(self, script, patience=PATIENCE):
        return command(*self.inside("sh", "-ec", script), patience=patience)

    @contextlib.contextmanager
    def network(self):
        """What this thread connects within, it connects from this host."""
        library = ctypes.CDLL(None, use_errno=True)
        with open("/proc/thread-self/ns/net") as own, open(f"/run/netns/{self.name}") as there:
            if library.setns(there.fileno(), CLONE_NEWNET):
                raise OSError(ctypes.get_errno(), "setns")
            try:
                yield
            finally:
                library.setns(own.fileno(), CLONE_NEWNET)

    # ---- harm ----

    def cut(self):
        """No packet arrives or leaves any more, and no peer is notified."""
        command("ip", "link", "set", self.name, "nomaster")

    def join(self):
        command("ip", "link", "set", self.name, "master", "switch")

    def kill(self):
        """All its processes at once, as `kill -9` of each."""
        self.box.kill()
        self.box.wait()
        with contextlib.suppress(ChildProcessError):
            os.waitpid(self.first, 0)
        self.box = self.first = None

    def cut_power(self):
        """What was written and not synced is lost: the file system ends without a word to its disk, and is mounted
        anew."""
        folder = os.open(self.disk, os.O_RDONLY)
        fcntl.ioctl(folder, EXT4_IOC_SHUTDOWN, WITHOUT_ITS_LOG)
        os.close(folder)
        comes_true("the end of the disk", lambda: command("umount", str(self.disk)) == "")
        self.mount_disk()


class Unit:
    """A service as systemd runs it with `Restart=always` and `RestartSec=1`: `words` are its `ExecStart`, `behind` its
    `ExecStopPost`. `lines` has the output of its runs, with times."""

    REST = 1.0

    def __init__(self, host, words, behind, log):
        self.host, self.words, self.behind, self.log = host, words, behind, log
        self.process, self.again, self.said = None, NEVER, b""
        self.lines = []

    def enable(self):
        self.again = time.monotonic()

    def turn(self):
        """Starts it where its time has come, and reads what it says."""
        if self.process is None:
            if time.monotonic() >= self.again:
                self.process = subprocess.Popen(self.host.inside(*self.words), stdin=subprocess.DEVNULL,
                                                stdout=subprocess.PIPE, stderr=self.log)
                os.set_blocking(self.process.stdout.fileno(), False)
            return
        ended = self.process.poll() is not None
        self._read()
        if ended:
            self._over()

    def _read(self):
        with contextlib.suppress(BlockingIOError):
            while piece := os.read(self.process.stdout.fileno(), 65_536):
                self.said += piece
        *whole, self.said = self.said.split(b"\n")
        self.lines += [(time.monotonic(), line.decode()) for line in whole]

    def _over(self):
        self.process.stdout.close()
        self.process, self.again, self.said = None, time.monotonic() + self.REST, b""
        self.lines.append((time.monotonic(), "ended"))
        if self.host.first is not None:
            subprocess.run(self.host.inside(*self.behind), stdin=subprocess.DEVNULL, stderr=subprocess.DEVNULL)

    def disable(self):
        """With its host nothing of it is left, and nothing starts it."""
        self.kill()
        self.again = NEVER

    def kill(self):
        """The program and all that it started, as `kill -9` of the unit."""
        if self.process is not None:
            kill_inside(self.process)
            self._over()
