"""Runs the program over `changes.c`, which records its calls that change files and folders or makes one of them fail;
and says what of it a power cut may yet take.

A name that was made, changed or removed may be lost until its folder is synced, a file's bytes and its length until the
file is, and a folder's mode and owner until the folder is. Systems keep more than that in order; what is written here
counts on none of it."""

import contextlib
import errno
import os
import signal
import subprocess

from preload import library


def run(snapd, *words, fault=None, **more):
    """The run, and its calls that succeeded, in order: each a name and its words.
    `fault` is a call's number and what comes of it."""
    log = snapd.file("changes.log")
    log.unlink(missing_ok=True)
    done = snapd(*words, env=environment(fault) | {"CHANGES_LOG": str(log)}, **more)
    events = [tuple(line.split("\t")) for line in log.read_text().splitlines()] if log.exists() else []
    log.unlink(missing_ok=True)
    return done, [("say", it[1], bytes.fromhex(it[2]).decode()) if it[0] == "say" else it for it in events]


def environment(fault=None):
    return {"LD_PRELOAD": library("changes")} | ({} if fault is None else {"CHANGES_FAULT": "%d %s" % fault})


@contextlib.contextmanager
def stopped(snapd, *words, at):
    """A run that has stopped before this call; it continues at the end."""
    run = subprocess.Popen([snapd.path, *words], cwd=snapd.folder, env=os.environ | environment((at, "stop")),
                           stdout=subprocess.PIPE, stderr=subprocess.PIPE, text=True)
    try:
        os.waitid(os.P_PID, run.pid, os.WSTOPPED)
        yield run
    finally:
        run.send_signal(signal.SIGCONT)


# With these a system says that it syncs no folder, or not for this user: nothing has failed.
# With the others something has.
NOT_ALLOWED = (errno.EACCES, errno.EPERM, errno.EINVAL, errno.EOPNOTSUPP, errno.ENOSYS, errno.EROFS)
FAULTS = (errno.EIO, errno.ENOSPC, errno.EDQUOT)


def folder_of(path):
    return os.path.dirname(path.rstrip("/")) or "."


class Open:
    """What a power cut may yet take, call by call."""

    def __init__(self):
        # Each the kind of a change, what has to be synced to make it last, and the name that is changed.
        self.changes = set()

    def take(self, event):
        """A call that was made."""
        name, *paths = event
        if name in ("create", "mkdir", "unlink", "rmdir"):
            self.changes.add(("name", folder_of(paths[0]), paths[0]))
        if name in ("unlink", "rmdir"):
            # What isn't there any more needs no sync.
            self.changes -= {it for it in self.changes if it[1] == paths[0]}
        elif name == "rename":
            before, after = paths
            self.changes = {tuple(moved(word, before, after) for word in it) for it in self.changes}
            self.changes.add(("name", folder_of(after), after))
        elif name in ("mode", "owner"):
            self.changes.add(("inode", paths[0], paths[0]))
        elif name in ("length", "write"):
            self.changes.add(("bytes", paths[0], paths[0]))
        elif name == "sync":
            self.changes -= {it for it in self.changes if it[1] == paths[0]}
        elif name == "syncdata":
            self.changes.discard(("bytes", paths[0], paths[0]))

    def take_all(self, events):
        for event in events:
            self.take(event)


def moved(path, before, after):
    """A path after a renaming."""
    return after + path[len(before):] if path == before or path.startswith(before + "/") else path


def told_when_for_good(events, still, folder, *more):
    """At each line of standard output that names a segment its file was for good, with each of the names in `more`; at
    a line that names none, and at the end, all was. `still` is what was open before."""
    for event in events:
        if event[:2] == ("say", "1"):
            words = event[2].split()
            paths = {f"{folder}/segment-{int(words[1]):02}.seg", *more} if words[1].isdigit() else None
            open_now = {it for it in still.changes if paths is None or it[2] in paths}
            assert not open_now, (event, open_now, events)
        still.take(event)
    assert not still.changes, (still.changes, events)
