"""Where `snapd load` puts its folder: what it takes over from an empty one, what it says where it can't, what a power
cut may take, and two at once."""

import copy
import errno
import os
import pathlib
import shutil
import signal
import stat
import subprocess
import threading

import changes
from program import Program, Skipped
from test_dump import document, files_of, loaded, refused
from test_folder import files_in, name_of
from waiting import PATIENCE

NOBODY = 65_534
ENTRIES = [(7, b"hi"), (1, b"\x00\xff")]
DONE = loaded(ENTRIES, "E")
WHOLE = files_of(ENTRIES)
TAKEN = "it is not empty: give the path of a folder that isn't there yet"


def dump(snapd):
    snapd.file("dump").write_bytes(document(ENTRIES))
    return "dump"


def standing(place):
    """The owner, group and mode of a folder."""
    found = os.stat(place)
    return found.st_uid, found.st_gid, stat.S_IMODE(found.st_mode)


def not_given(folder, owner, group, mode):
    return (
        f"user {owner}, group {group} and mode {mode:04o} can't be given to the folder that takes its place: "
        "load as that user or as root, or give the path of a folder that isn't there yet"
    )


def for_all(snapd):
    """The program as each user may run it, in a folder that is everybody's."""
    if os.geteuid() != 0:
        raise Skipped("it needs root")
    os.chmod(snapd.folder, 0o777)
    program = pathlib.Path(snapd.folder) / "snapd-of-all"
    program.write_bytes(pathlib.Path(snapd.path).read_bytes())
    program.chmod(0o755)
    return Program(program, snapd.folder)


def as_nobody(program, *words):
    return program(*words, user=NOBODY, group=NOBODY, extra_groups=[])


# ---- what is taken over ----

def test_an_empty_folder_keeps_its_mode(snapd, _):
    """And the folder in the making is as closed as the wanted one."""
    dump(snapd)
    for mode in (0o700, 0o750, 0o1777, 0o2770, 0o711):
        place = snapd.file("E")
        place.mkdir()
        place.chmod(mode)
        run, events = changes.run(snapd, "load", "E", "dump")
        run.gave(0, DONE)
        assert standing(place) == (os.geteuid(), os.getegid(), mode), (oct(mode), standing(place))
        assert files_in(place) == WHOLE
        assert events.index(("mode", "E.loading")) < events.index(("create", f"E.loading/{name_of(0)}")), events
        shutil.rmtree(place)


def test_a_new_folder_has_the_mode_of_any_new_one(snapd, _):
    dump(snapd)
    for mask in (0o022, 0o077):
        before = os.umask(mask)
        try:
            snapd("load", "E", "dump").gave(0, DONE)
            assert standing(snapd.file("E"))[2] == 0o777 & ~mask
        finally:
            os.umask(before)
        shutil.rmtree(snapd.file("E"))


def test_an_empty_folder_keeps_its_owner(snapd, _):
    if os.geteuid() != 0:
        raise Skipped("it needs root")
    dump(snapd)
    for owner, group in ((NOBODY, NOBODY), (NOBODY, 0), (0, NOBODY)):
        place = snapd.file("E")
        place.mkdir(mode=0o700)
        os.chown(place, owner, group)
        snapd("load", "E", "dump").gave(0, DONE)
        assert standing(place) == (owner, group, 0o700), standing(place)
        assert files_in(place) == WHOLE
        shutil.rmtree(place)


def test_what_a_load_left_gets_the_mode_too(snapd, _):
    dump(snapd)
    snapd.file("E").mkdir(mode=0o700)
    snapd.file("E.loading").mkdir(mode=0o755)
    (snapd.file("E.loading") / name_of(0)).write_bytes(b"")
    snapd("load", "E", "dump").gave(0, DONE)
    assert standing(snapd.file("E"))[2] == 0o700 and files_in(snapd.file("E")) == WHOLE


def test_an_empty_folder_by_any_name(snapd, _):
    dump(snapd)
    snapd.file("o").mkdir()
    for name in (
        "E", "E/", "E//", "E/.", "E/./", "./E/.", "E/.//.", "o/../E/.", snapd.file("E"), f"{snapd.file('E')}/.",
    ):
        for is_there in (True, False):
            place = snapd.file("E")
            if is_there:
                place.mkdir(mode=0o700)
            snapd("load", name, "dump").gave(0, loaded(ENTRIES, name))
            assert files_in(place) == WHOLE and standing(place)[2] == (0o700 if is_there else 0o777 & ~mask())
            refused(snapd("load", name, "dump"), str(name).rstrip("/.") or "E", TAKEN)
            shutil.rmtree(place)
    assert sorted(it.name for it in snapd.folder.iterdir()) == ["dump", "o"]


def mask():
    found = os.umask(0o022)
    os.umask(found)
    return found


def test_a_folder_that_isnt_empty_is_left(snapd, _):
    dump(snapd)
    place = snapd.file("E")
    place.mkdir(mode=0o700)
    (place / "x").write_bytes(b"x")
    for name in ("E", "E/", "E/."):
        refused(snapd("load", name, "dump"), "E", TAKEN)
        assert files_in(place) == {"x": b"x"} and standing(place)[2] == 0o700 and not snapd.file("E.loading").exists()


# ---- each of the errors ----

def test_a_user_who_isnt_root(snapd, _):
    """Everything that such a user may lack: it is reported, and nothing is made."""
    other = for_all(snapd)
    dump(snapd)
    place, left = snapd.file("E"), snapd.file("E.loading")

    def empty(owner, group, mode):
        place.mkdir()
        os.chown(place, owner, group)
        place.chmod(mode)

    # Its own folder, with each mode that lets it in.
    for mode in (0o700, 0o755, 0o1770):
        empty(NOBODY, NOBODY, mode)
        as_nobody(other, "load", "E", "dump").gave(0, DONE)
        assert standing(place) == (NOBODY, NOBODY, mode) and files_in(place) == WHOLE
        shutil.rmtree(place)
    as_nobody(other, "load", "E", "dump").gave(0, DONE)
    assert standing(place)[:2] == (NOBODY, NOBODY)
    shutil.rmtree(place)
    # Another owner, and another group.
    for owner, group in ((0, 0), (NOBODY, 0), (0, NOBODY), (1, 1)):
        empty(owner, group, 0o755)
        refused(as_nobody(other, "load", "E", "dump"), "E", not_given("E", owner, group, 0o755))
        assert standing(place) == (owner, group, 0o755) and not files_in(place) and not left.exists()
        place.rmdir()
    # A folder that only its owner may read, and one in which its owner may make nothing.
    empty(0, 0, 0o700)
    as_nobody(other, "load", "E", "dump").failed_with(1, "E: Permission denied")
    place.rmdir()
    empty(NOBODY, NOBODY, 0o500)
    as_nobody(other, "load", "E", "dump").failed_with(1, f"E.loading/{name_of(0)}: Permission denied")
    assert standing(place) == (NOBODY, NOBODY, 0o500) and not files_in(place)
    # And then it may.
    place.chmod(0o700)
    as_nobody(other, "load", "E", "dump").gave(0, DONE)
    assert standing(place) == (NOBODY, NOBODY, 0o700) and not left.exists()
    shutil.rmtree(place)
    # The dump can't be read.
    os.chmod(snapd.file("dump"), 0o600)
    as_nobody(other, "load", "E", "dump").failed_with(1, "dump: Permission denied")
    os.chmod(snapd.file("dump"), 0o644)
    # What another user's load left.
    left.mkdir(mode=0o755)
    (left / name_of(0)).write_bytes(b"")
    as_nobody(other, "load", "E", "dump").failed_with(1, f"E.loading/{name_of(0)}: Permission denied")
    assert files_in(left) == {name_of(0): b""}
    shutil.rmtree(left)
    # The folder around it takes no name.
    os.chmod(snapd.folder, 0o755)
    as_nobody(other, "load", "E", "dump").failed_with(1, "E.loading: Permission denied")
    assert not place.exists() and not left.exists()


def mounted(snapd, options):
    """A file system of its own at `disk`."""
    place = snapd.file("disk")
    place.mkdir()
    mount = subprocess.run(
        ["mount", "-t", "tmpfs", "-o", options, "tmpfs", place], capture_output=True, text=True, check=False
    )
    if mount.returncode != 0:
        raise Skipped(f"no file system can be mounted here: {mount.stderr.strip()}")
    return place


def test_no_room_and_only_to_be_read(snapd, _):
    if os.geteuid() != 0:
        raise Skipped("mounting wants root")
    dump(snapd)
    for options, status, parts in (
        ("size=36k", 3, (f"disk/E.loading/{name_of(1)}: write: No space left on device",)),
        ("size=1m,nr_inodes=1", 1, ("disk/E.loading: No space left on device",)),
        ("size=1m,nr_inodes=3", 1, (f"disk/E.loading/{name_of(1)}: No space left on device",)),
        ("ro", 1, ("disk/E.loading: Read-only file system",)),
    ):
        place = mounted(snapd, options)
        try:
            run = snapd("load", "disk/E", "dump")
            assert run.status == status and all(part in run.errors for part in parts), run
            assert not (place / "E").exists()
            if options != "ro":
                subprocess.run(["mount", "-o", "remount,size=1m,nr_inodes=100", place], check=True)
                snapd("load", "disk/E", "dump").gave(0, loaded(ENTRIES, "disk/E"))
                assert files_in(place / "E") == WHOLE and not (place / "E.loading").exists()
        finally:
            subprocess.run(["umount", "-l", place], check=True)
            place.rmdir()


def test_a_place_that_cant_be_replaced(snapd, _):
    """A mount point, and a link to an empty folder: all is made beside it, and it is said where.
    Both stay as they are."""
    if os.geteuid() != 0:
        raise Skipped("mounting wants root")
    dump(snapd)
    place = mounted(snapd, "size=1m,mode=0710")
    try:
        os.symlink("disk", snapd.file("link"))
        for name, why in (("disk", "Device or resource busy (os error 16)"), ("link", "Not a directory (os error 20)")):
            run = snapd("load", name, "dump")
            assert run.status == 1 and run.output.decode() + f"ready {name}\n" == loaded(ENTRIES, name), run
            assert run.errors == f"snapd: {name}: {why}: all files are made, in {name}.loading\n", run
            left = snapd.file(f"{name}.loading")
            assert files_in(left) == WHOLE and standing(left)[2] == 0o710
            assert snapd("serve", "127.0.0.1:0", "--dir", left, "--connections", 0).status == 0
        assert place.is_mount() and not files_in(place) and snapd.file("link").is_symlink()
    finally:
        subprocess.run(["umount", "-l", place], check=True)


def test_each_call_fails(snapd, _):
    """Each call in turn, with each error that is a fault of a disk or a file system: the folder isn't there, or is
    there whole; and the next load makes it."""
    dump(snapd)
    place, left = snapd.file("E"), snapd.file("E.loading")
    for at, event, named, is_renamed in calls(snapd):
        is_sync = is_of_names(event, named)
        for number in changes.NOT_ALLOWED + changes.FAULTS if is_sync else (errno.EIO, errno.ENOSPC):
            place.mkdir(mode=0o700)
            run, _ = changes.run(snapd, "load", "E", "dump", fault=(at, number))
            if event[0] == "owner" or (is_sync and number in changes.NOT_ALLOWED):
                # It was the right owner already. Names that can't be synced are as they are.
                run.gave(0, DONE)
            else:
                status, line = said_of(event, named, is_renamed, f"{os.strerror(number)} (os error {number})")
                assert (run.status, run.errors) == (status, f"snapd: {line}\n"), (event, run)
                assert event[0] == "say" or b"ready" not in run.output, run
                if not is_renamed:
                    assert not files_in(place), (event, run)
                    snapd("load", "E", "dump").gave(0, DONE)
            assert files_in(place) == WHOLE and not left.exists() and standing(place)[2] == 0o700, (event, run)
            shutil.rmtree(place)


def calls(snapd):
    """The calls of a load into an empty folder: for each its number from 1 on, what it is, which path is named where it
    fails, and whether the folder has its name then."""
    snapd.file("E").mkdir(mode=0o700)
    run, events = changes.run(snapd, "load", "E", "dump")
    run.gave(0, DONE)
    shutil.rmtree(snapd.file("E"))
    named, is_renamed = "dump", False
    for at, event in enumerate(events, 1):
        if event[0] in ("mkdir", "create"):
            named = event[1]
        elif event[0] == "rename":
            named = "E"
        yield at, event, named, is_renamed
        is_renamed = is_renamed or event[0] == "rename"


def is_of_names(event, named):
    """A call that syncs the names of a folder. To be locked E.loading is opened before it has a file."""
    return event[0] == "sync" or event == ("open", ".") or (event == ("open", "E.loading") and named != "E.loading")


def said_of(event, named, is_renamed, why):
    """The status and the line where this call fails."""
    if event[0] in ("write", "syncdata"):
        call = "write" if event[0] == "write" else "sync"
        return 3, f"refused 13 DeviceFailed\nsnapd: {named}: {call}: {why}: look after its disk, and try again"
    if event[0] == "mode":
        return 3, f"E: {not_given('E', os.geteuid(), os.getegid(), 0o700)}"
    if event[0] == "rename":
        return 1, f"E: {why}: all files are made, in E.loading"
    if event[0] == "say":
        return 1, f"standard output: {why}"
    if is_renamed:
        more = "it is there whole, but a power cut may take its name: look after its disk, and load the dump elsewhere"
        return 1, f"E: {why}: {more}"
    return 1, f"{named}: {why}"


# ---- a power cut ----

def test_nothing_of_it_is_open_when_it_gets_its_name(snapd, _):
    """Whatever a power cut takes that wasn't synced: at the renaming all else is for good,
    and at the last line that too."""
    dump(snapd)
    for is_there in (False, True):
        if is_there:
            snapd.file("E").mkdir(mode=0o700)
        run, events = changes.run(snapd, "load", "E", "dump", "--count", 3)
        run.gave(0, loaded(ENTRIES, "E", 3))
        judge(events, changes.Open())
        shutil.rmtree(snapd.file("E"))


def judge(events, still):
    """A file is synced before it is reported, all of them before the renaming, and that before the last line."""
    until = copy.deepcopy(still)
    for event in events[: events.index(("rename", "E.loading", "E"))]:
        until.take(event)
    assert not until.changes, (until.changes, events)
    changes.told_when_for_good(events, still, "E.loading")


def test_it_is_killed_at_each_call(snapd, _):
    """The folder isn't there, or is there whole. The next load makes it,
    and leaves nothing open that the first one did."""
    dump(snapd)
    place, left = snapd.file("E"), snapd.file("E.loading")
    for is_there in (False, True):
        if is_there:
            place.mkdir(mode=0o700)
        _, all_events = changes.run(snapd, "load", "E", "dump")
        shutil.rmtree(place)
        wholes = 0
        for at in range(1, len(all_events) + 1):
            if is_there:
                place.mkdir(mode=0o700)
            run, events = changes.run(snapd, "load", "E", "dump", fault=(at, "kill"))
            assert run.status == -9 and events == all_events[: at - 1], (at, run, events)
            still = changes.Open()
            still.take_all(events)
            if place.exists() and files_in(place):
                assert files_in(place) == WHOLE and not left.exists()
                wholes += 1
            else:
                assert place.exists() == is_there
                run, events = changes.run(snapd, "load", "E", "dump")
                run.gave(0, DONE)
                judge(events, still)
                assert files_in(place) == WHOLE and not left.exists()
            if is_there:
                assert standing(place)[2] == 0o700
            shutil.rmtree(place)
        # At the opening and the sync of the folder around it, and at the last line.
        assert wholes == 3, wholes


# ---- two at once ----

def test_loads_of_several_dumps_at_once(snapd, _):
    """One of them makes the folder, of its own dump alone; the others say why they don't. It is as it was,
    in mode and owner."""
    dumps = [[(number + 1, b"%d" % number * 900) for _ in range(6)] for number in range(4)]
    for number, entries in enumerate(dumps):
        snapd.file(f"dump{number}").write_bytes(document(entries))
    for round_ in range(24):
        place = snapd.file("E")
        if round_ % 2:
            place.mkdir(mode=0o710)
        if round_ % 3 == 0:
            # And a load that was cut off left this.
            snapd.file("E.loading").mkdir()
            (snapd.file("E.loading") / name_of(9)).write_bytes(b"")
        begin = threading.Barrier(len(dumps))
        runs = {}

        def load(number):
            begin.wait(PATIENCE)
            runs[number] = snapd("load", "E", f"dump{number}")

        threads = [threading.Thread(target=load, args=[number]) for number in range(len(dumps))]
        for thread in threads:
            thread.start()
        for thread in threads:
            thread.join()
        done = [number for number, run in runs.items() if run.status == 0]
        assert len(done) == 1, runs
        runs[done[0]].gave(0, loaded(dumps[done[0]], "E"))
        for number, run in runs.items():
            if number not in done:
                assert (
                    run.output == b""
                    and run.status in (1, 3)
                    and run.errors.startswith(("snapd: E: ", "snapd: E.loading: "))
                ), runs
        assert files_in(place) == files_of(dumps[done[0]]) and not snapd.file("E.loading").exists()
        if round_ % 2:
            assert standing(place)[2] == 0o710
        shutil.rmtree(place)


def test_a_load_beside_one_that_is_stopped(snapd, _):
    """At each call of the one another makes the folder, or is refused and leaves what the one has made."""
    dump(snapd)
    other = [(9, b"other"), (9, b"other"), (9, b"other")]
    snapd.file("other").write_bytes(document(other))
    place, left = snapd.file("E"), snapd.file("E.loading")
    at_work = "another load is at work there: wait for it, or give another folder"
    outcomes = []
    for at, event, _, is_renamed in list(calls(snapd)):
        place.mkdir(mode=0o700)
        with changes.stopped(snapd, "load", "E", "dump", at=at) as first:
            second = snapd("load", "E", "other")
            if second.status == 0:
                second.gave(0, loaded(other, "E"))
            elif is_renamed:
                refused(second, "E", TAKEN)
            else:
                refused(second, "E.loading", at_work)
        output, errors = first.communicate(timeout=PATIENCE)
        if second.status == 0:
            # Where it has found the other's folder already, it says so.
            assert (first.returncode, output) == (3, "") and (TAKEN in errors or at_work in errors), (event, errors)
            assert files_in(place) == files_of(other)
        else:
            assert (first.returncode, output, errors) == (0, DONE, ""), (event, errors)
            assert files_in(place) == WHOLE
        assert standing(place)[2] == 0o700 and not left.exists(), event
        outcomes.append(second.status)
        shutil.rmtree(place)
    assert outcomes.count(0) == outcomes.index(3) > 3 and outcomes.count(3) > 20, outcomes


def test_a_load_that_opened_a_folder_which_is_gone(snapd, _):
    """It opened what a load had left, and before it had the lock that was removed and made anew:
    it takes nothing of the other's."""
    dump(snapd)
    other = [(9, b"other")] * 3
    snapd.file("other").write_bytes(document(other))
    place, left = snapd.file("E"), snapd.file("E.loading")
    events = [event for _, event, _, _ in calls(snapd)]
    lock, write = (1 + next(at for at, event in enumerate(events) if event[0] == name) for name in ("lock", "write"))
    with changes.stopped(snapd, "load", "E", "dump", at=lock) as first:
        left.rmdir()
        with changes.stopped(snapd, "load", "E", "other", at=write) as second:
            before = files_in(left)
            assert list(before) == [name_of(0)]
            first.send_signal(signal.SIGCONT)
            output, errors = first.communicate(timeout=PATIENCE)
            at_work = "snapd: E.loading: another load is at work there: wait for it, or give another folder\n"
            assert (first.returncode, output, errors) == (3, "", at_work)
            assert files_in(left) == before
        output, errors = second.communicate(timeout=PATIENCE)
        assert (second.returncode, output, errors) == (0, loaded(other, "E"), "")
    assert files_in(place) == files_of(other) and not left.exists()
