"""One `snapd` on a file at a time: a writer excludes all others, and readers exclude writers."""

import fcntl
import os
import subprocess
import threading

import segment_file as layout
from waiting import is_read

IN_USE = "snapd: F: it is in use by another snapd\n"
WRITERS = [("format", "F"), ("put", "F")]
READERS = [("get", "F"), ("check", "F")]


def locked(file, how):
    holder = open(file, "rb")
    try:
        fcntl.flock(holder, how | fcntl.LOCK_NB)
    except BlockingIOError:
        holder.close()
        raise
    return holder


def is_locked(file):
    try:
        locked(file, fcntl.LOCK_SH).close()
        return False
    except BlockingIOError:
        return True


def test_writer_shuts_all_others_out(snapd, _):
    file = snapd.formatted()
    before = file.read_bytes()
    with locked(file, fcntl.LOCK_EX):
        for words in WRITERS + READERS:
            snapd(*words, stdin="hi").gave(1, errors=IN_USE)
    assert file.read_bytes() == before
    snapd("put", "F", stdin="hi").gave(0, "stored 1\n")


def test_readers_shut_writers_out(snapd, _):
    file = snapd.formatted()
    snapd("put", "F", stdin="hi").gave(0, "stored 1\n")
    with locked(file, fcntl.LOCK_SH):
        for words in WRITERS:
            snapd(*words, stdin="ho").gave(1, errors=IN_USE)
        snapd("get", "F").gave(0, "hi")
        assert snapd("check", "F").status == 0
    snapd("get", "F").gave(0, "hi")


def test_file_in_use_is_not_made(snapd, _):
    """A file that another program is making is left to it."""
    file = snapd.file()
    file.write_bytes(b"")
    with locked(file, fcntl.LOCK_EX):
        snapd("format", "F").gave(1, errors=IN_USE)
    assert file.read_bytes() == b""
    snapd("format", "F").gave(0, "formatted 0 of 1\n")


def test_a_migration_shares_the_old_file_and_has_the_new_one_alone(snapd, _):
    old = snapd.file("OLD")
    old.write_bytes(layout.OLD.holding((0, b""), (1, b"hi")))
    data, zeros = old.read_bytes(), bytes(layout.LENGTH)
    snapd.file().write_bytes(zeros)
    words = ("migrate", "OLD", "F")
    # Whoever writes the old file, or uses the new one at all, keeps it out.
    with locked(old, fcntl.LOCK_EX):
        snapd(*words).gave(1, errors=IN_USE.replace("F:", "OLD:"))
    for how in (fcntl.LOCK_EX, fcntl.LOCK_SH):
        with locked(snapd.file(), how):
            snapd(*words).gave(1, errors=IN_USE)
    assert (old.read_bytes(), snapd.file().read_bytes()) == (data, zeros)
    # Whoever reads the old file doesn't.
    with locked(old, fcntl.LOCK_SH):
        snapd(*words).gave(0, "migrated 0 of 1 number 1\n")
    assert not is_locked(old) and not is_locked(snapd.file())


def test_put_has_its_file_from_its_beginning(snapd, _):
    """A `put` that waits for its value has the file, also where it is killed: the lock ends with it."""
    file = snapd.formatted()
    for ends in ("by its value", "by a kill"):
        put = subprocess.Popen(
            [snapd.path, "put", "F"], cwd=snapd.folder, stdin=subprocess.PIPE, stdout=subprocess.PIPE,
            stderr=subprocess.PIPE
        )
        try:
            # It has its lock before it reads. A try for the lock would be in its way.
            put.stdin.write(b"h")
            put.stdin.flush()
            is_read(put.stdin)
            for words in WRITERS + READERS:
                snapd(*words, stdin="ho").gave(1, errors=IN_USE)
            if ends == "by a kill":
                put.kill()
                assert put.communicate()[0] == b""
            else:
                assert put.communicate(b"i")[0] == b"stored 1\n"
        finally:
            put.kill()
            put.wait()
        snapd("get", "F").gave(0, "hi")


def test_a_lock_that_ends_late_is_waited_for(snapd, _):
    """On a network's file system a lock outlives its process for a while."""
    file = snapd.formatted()
    for words, printed in ((("put", "F"), "stored 1\n"), (("get", "F"), "hi")):
        holder = locked(file, fcntl.LOCK_EX)
        threading.Timer(0.3, holder.close).start()
        snapd(*words, stdin="hi").gave(0, printed)
        assert holder.closed


def test_one_file_by_two_names(snapd, _):
    """It isn't another program that has it in use."""
    file = snapd.formatted()
    os.link(file, snapd.file("G"))
    os.symlink(file, snapd.file("H"))
    for other in ("F", "./F", "G", "H"):
        told = f"snapd: {other}: it is the same file as F: each file is named once\n"
        snapd("serve", "127.0.0.1:0", "F", other).gave(1, errors=told)
        snapd("migrate", "F", other).gave(1, errors=told)
    snapd.file("E").write_bytes(layout.holding((0, b""), index=0, count=3))
    told = "snapd: G: it is the same file as F: each file is named once\n"
    snapd("serve", "127.0.0.1:0", "E", "F", "G").gave(1, errors=told)
