"""What `snapd init` does with a folder in which something is wrong: a file was lost, is bad or in use, a call fails, a
power cut comes, or another init is at work."""

import errno
import fcntl
import itertools
import os
import shutil
import subprocess
from concurrent.futures import ThreadPoolExecutor

import changes
import segment_file as layout
from preload import library
from program import Skipped
from serving import Server
from test_commands import FORMATTED, of_length, unformatted
from test_folder import files_in, fresh_files, made, name_of
from test_load_folders import NOBODY, as_nobody, for_all, mounted
from test_locks import locked
from test_memory import count_of
from waiting import PATIENCE


def folder(snapd, numbers, name="D"):
    """A folder with a file for each of these numbers, and without one where there is None."""
    place = snapd.file(name)
    place.mkdir()
    for index, number in enumerate(numbers):
        if number is not None:
            (place / name_of(index)).write_bytes(file_of(index, len(numbers), number))
    return place


def file_of(index, count, number):
    before = [(number - 1, b"before")] if number > 0 else []
    return layout.holding(*before, (number, b"value" if number else b""), index=index, count=count)


def init(snapd, count, *more, folder="D", **how):
    return snapd("init", folder, "--count", count, *more, **how)


def lost(files, sign, number, count, folder="D"):
    """What is said of files that were lost."""
    missing = ", ".join(f"{folder}/{it}" for it in files)
    return (
        f"snapd: {missing}: missing or never formatted, though {folder}/{sign} holds number {number}: "
        "restore what is missing from a backup, "
        f"or make it new and empty with snapd init {folder} --count {count} --missing-empty\n"
    )


# ---- a file that was lost ----

def test_each_file_that_was_lost(snapd, _):
    """Of three files each has a value, is new or isn't there: what isn't there is made where nothing was stored,
    and else refused."""
    for number, numbers in enumerate(itertools.product((None, 0, 7, 8), repeat=3)):
        place = folder(snapd, numbers, f"D{number}")
        before = files_in(place)
        stored = [index for index, it in enumerate(numbers) if it]
        missing = [index for index, it in enumerate(numbers) if it is None]
        done = made(3, kept=[(index, it) for index, it in enumerate(numbers) if it is not None])
        if stored and missing:
            line = lost(map(name_of, missing), name_of(stored[0]), numbers[stored[0]], 3, place.name)
            for _ in range(2):
                init(snapd, 3, folder=place.name).gave(3, errors=line)
                assert files_in(place) == before
            init(snapd, 3, "--missing-empty", folder=place.name).gave(0, done)
        else:
            init(snapd, 3, folder=place.name).gave(0, done)
        after = before | {name_of(index): fresh_files(3)[name_of(index)] for index in missing}
        assert files_in(place) == after
        for more in ((), ("--missing-empty",)):
            init(snapd, 3, *more, folder=place.name).gave(
                0, made(3, kept=[(index, it or 0) for index, it in enumerate(numbers)])
            )
        assert files_in(place) == after


def test_a_file_without_a_header_is_lost_too(snapd, _):
    """As one that was cut to nothing, or of which a crash left zeros; not one that still has a value."""
    closed = bytearray(file_of(1, 3, 0))
    closed[layout.HEADER_GATE] = 0
    for data in (b"", bytes(layout.LENGTH), bytes(closed)):
        place = folder(snapd, (0, None, 5))
        (place / name_of(1)).write_bytes(data)
        before = files_in(place)
        init(snapd, 3).gave(3, errors=lost([name_of(1)], name_of(2), 5, 3))
        assert files_in(place) == before
        init(snapd, 3, "--missing-empty").gave(0, made(3, kept=[(0, 0), (2, 5)]))
        assert files_in(place) == before | {name_of(1): fresh_files(3)[name_of(1)]}
        shutil.rmtree(place)
    # It is refused as such, and shows that another one was lost.
    bare = bytearray(file_of(1, 3, 5))
    bare[layout.HEADER_GATE] = 0
    for first, output, line in (
        (0, "kept 0 of 3 number 0\n",
         f"snapd: refused 11 Unformatted\nsnapd: {unformatted('--index 1 --count 3', f'D/{name_of(1)}')}\n"),
        (None, "", lost([name_of(0)], name_of(1), 5, 3)),
    ):
        place = folder(snapd, (first, None, 0))
        (place / name_of(1)).write_bytes(bare)
        before = files_in(place)
        init(snapd, 3).gave(3, output, line)
        assert files_in(place) == before
        shutil.rmtree(place)


def test_nothing_is_made_of_a_folder_that_lost_a_file(snapd, _):
    """No call changes anything, and no file has another time."""
    place = folder(snapd, (3, None, 4))
    times = {it.name: it.stat().st_mtime_ns for it in (*place.iterdir(), place)}
    run, events = changes.run(snapd, "init", "D", "--count", "3")
    run.gave(3, errors=lost([name_of(1)], name_of(0), 3, 3))
    assert {it[0] for it in events} == {"open", "lock", "sync", "say"}, events
    assert {it.name: it.stat().st_mtime_ns for it in (*place.iterdir(), place)} == times


def test_a_boot_script_sees_the_loss(snapd, _):
    """As the issue was found: a server of five segments, one of which is missing at the next boot."""
    script = 'set -e; "$0" init board --count 5 > made; "$0" serve 127.0.0.1:0 --dir board --connections 0'

    def boot():
        return subprocess.run(["sh", "-c", script, snapd.path], cwd=snapd.folder, capture_output=True, text=True)

    assert boot().returncode == 0
    snapd("put", f"board/{name_of(3)}", "--index", 3, "--count", 5, stdin="x").gave(0, "stored 1\n")
    assert boot().returncode == 0
    (snapd.file("board") / name_of(1)).unlink()
    run = boot()
    assert (run.returncode, run.stdout) == (3, "") and run.stderr == lost([name_of(1)], name_of(3), 1, 5, "board"), run


def test_files_of_other_names_are_kept(snapd, _):
    """A server takes a segment's file by its header, whatever it is called. So does an init,
    and makes no second one."""
    place = folder(snapd, (5, 0, 0))
    (place / name_of(0)).rename(place / "pressure.seg")
    before = files_in(place)
    init(snapd, 3).gave(0, made(3, kept=enumerate((5, 0, 0))))
    assert files_in(place) == before
    with Server(snapd, "--dir", "D") as server:
        assert server.scan() == [(5, b"value"), (0, b""), (0, b"")]
    # It shows that another one was lost.
    (place / name_of(2)).unlink()
    init(snapd, 3).gave(3, errors=lost([name_of(2)], "pressure.seg", 5, 3))
    # Of two the one that has the segment's name is it.
    (place / name_of(2)).write_bytes(file_of(2, 3, 4))
    (place / name_of(0)).write_bytes(file_of(0, 3, 6))
    before = files_in(place)
    init(snapd, 3).gave(3, made(3, kept=enumerate((6, 0, 4))), served(snapd, "it is segment 0 of 3"))
    assert files_in(place) == before
    # And where nothing else was stored, what they hold shows a loss too.
    other = folder(snapd, (0, None), "E")
    (other / "a.seg").write_bytes(file_of(0, 2, 9))
    init(snapd, 2, folder="E").gave(3, errors=lost([name_of(1)], "a.seg", 9, 2, "E"))


def served(snapd, why, status=3):
    """What a server says of the folder, which it refuses for this reason."""
    return snapd("serve", "127.0.0.1:0", "--dir", "D").failed_with(status, why).errors


def test_a_file_that_no_server_takes_beside_whole_ones(snapd, _):
    """They are kept, or made, and then it is refused as a server refuses it, and left as it is."""
    mark = bytearray(file_of(0, 2, 0))
    mark[0] ^= 1
    never, none = "it was never formatted, or its header is gone", "it is no segment file"
    for numbers, done in (((5, 0), made(2, kept=enumerate((5, 0)))), ((0, None), made(2, kept=[(0, 0)]))):
        for name in ("a.seg", "z.seg", "\x1b.seg"):
            for data, why in (
                (b"x", none), (b"", never), (bytes(layout.LENGTH), never), (bytes(mark), none),
                (bytes(layout.OLD.length), "it has the length of the old format"),
                (file_of(0, 2, 0), "it is segment 0 of 2"),
            ):
                place = folder(snapd, numbers)
                (place / name).write_bytes(data)
                for word in ((), ("--missing-empty",)):
                    after = made(2, kept=enumerate((numbers[0], 0))) if word else done
                    run = init(snapd, 2, *word)
                    run.gave(3, after, served(snapd, why))
                    assert (place / name).read_bytes() == data
                shutil.rmtree(place)
    place = folder(snapd, (5, 0))
    os.mkfifo(place / "a.seg")
    init(snapd, 2).gave(1, made(2, kept=enumerate((5, 0))), served(snapd, "it is a pipe, a socket or a device", 1))
    shutil.rmtree(place)
    # A server doesn't look at other names, nor does an init.
    place = folder(snapd, (5, 0))
    for name in ("a.SEG", "a.seg~", "seg"):
        (place / name).write_bytes(b"x")
    init(snapd, 2).gave(0, made(2, kept=enumerate((5, 0))))


def test_a_lost_file_beside_one_in_use(snapd, _):
    """A server has the others: nothing is made, and the file in use is named."""
    place = folder(snapd, (0, 2, 0))
    in_use = f"snapd: D/{name_of(1)}: it is in use by another snapd\n"
    for lost_one in (0, 2):
        data = (place / name_of(lost_one)).read_bytes()
        with locked(place / name_of(1), fcntl.LOCK_EX):
            (place / name_of(lost_one)).unlink()
            for more in ((), ("--missing-empty",)):
                init(snapd, 3, *more).gave(1, errors=in_use)
            assert not (place / name_of(lost_one)).exists()
        (place / name_of(lost_one)).write_bytes(data)
    with Server(snapd, "--dir", "D"):
        (place / name_of(0)).unlink()
        init(snapd, 3).gave(1, errors=in_use)
    assert not (place / name_of(0)).exists()


# ---- a bad file in each place ----

def test_a_bad_file_in_each_place(snapd, _):
    """First, in the middle and last: those before it are kept, it is refused, and each stays as it was."""
    count = 4

    def bad_files(index):
        name = f"D/{name_of(index)}"
        whole = file_of(index, count, 7)
        mark, bare = bytearray(whole), bytearray(whole)
        mark[0] ^= 1
        bare[layout.HEADER_GATE] = 0
        damaged = bytearray(whole)
        for slot in range(3):
            damaged[layout.gate_at(slot) + 1] = 1
        taken = ("refused 12 AlreadyFormatted", FORMATTED.replace("F", name, 1).replace("check F", f"check {name}"))
        more = unformatted(f"--index {index} --count {count}", name)
        old = layout.advice(name)
        yield "another segment's", file_of((index + 1) % count, count, 7), taken
        yield "another mark", bytes(mark), taken
        yield "no answer", bytes(damaged), taken
        yield "no header", bytes(bare), ("refused 11 Unformatted", more)
        yield "too short", whole[:-1], ("refused 14 WrongFile", of_length(layout.LENGTH - 1, name))
        yield "too long", whole + b"x", ("refused 14 WrongFile", of_length(layout.LENGTH + 1, name))
        yield "of the old format", bytes(layout.OLD.length), ("refused 14 WrongFile", old)

    for index in range(count):
        for what, data, lines in bad_files(index):
            place = folder(snapd, (3, 3, 0, 3))
            (place / name_of(index)).write_bytes(data)
            before = files_in(place)
            kept = "".join(made(count, kept=enumerate((3, 3, 0, 3))).splitlines(keepends=True)[:index])
            for more in ((), ("--missing-empty",)):
                run = init(snapd, count, *more)
                assert run.output.decode() == kept and run.status == 3, (index, what, run)
                assert run.errors == "".join(f"snapd: {line}\n" for line in lines), (index, what, run)
                assert files_in(place) == before, (index, what)
            # Beside one that another process has, nothing is said of it yet.
            held = (index + 1) % count
            with locked(place / name_of(held), fcntl.LOCK_EX):
                init(snapd, count).gave(1, errors=f"snapd: D/{name_of(held)}: it is in use by another snapd\n")
            assert files_in(place) == before
            shutil.rmtree(place)


def test_a_file_of_another_count_in_each_place(snapd, _):
    for index in range(3):
        place = folder(snapd, (3, 0, 3))
        (place / name_of(index)).write_bytes(file_of(index, 4, 0))
        before = files_in(place)
        line = (
            f"D/{name_of(index)}: it is of 4 segments, and --count is 3: give --count 4, or move it out of there; "
            "a folder of more is made of a dump, by snapd load"
        )
        init(snapd, 3, "--missing-empty").gave(3, errors=f"snapd: {line}\n")
        assert files_in(place) == before
        shutil.rmtree(place)


def test_a_file_of_another_count_by_any_name(snapd, _):
    """No folder with such a file is served, so nothing is made beside it, whether it holds a value or not."""
    for number, there in ((0, ()), (9, ()), (0, (0, 0, 0)), (9, (0, 3, 0))):
        place = folder(snapd, there)
        (place / "a.seg").write_bytes(file_of(1, 4, number))
        before = files_in(place)
        line = (
            "D/a.seg: it is of 4 segments, and --count is 3: give --count 4, or move it out of there; "
            "a folder of more is made of a dump, by snapd load"
        )
        for word in ((), ("--missing-empty",)):
            init(snapd, 3, *word).gave(3, errors=f"snapd: {line}\n")
            assert files_in(place) == before
        shutil.rmtree(place)


def test_a_file_that_cant_be_read_in_each_place(snapd, _):
    """By its disk, or since it is no file."""
    for index in range(3):
        name = f"D/{name_of(index)}"
        kept = "".join(made(3, kept=enumerate((3, 0, 3))).splitlines(keepends=True)[:index])
        place = folder(snapd, (3, 0, 3))
        env = {"LD_PRELOAD": library("disk_control"), "DISK_CONTROL": str(snapd.file("control"))}
        snapd.file("control").write_text(f"{name_of(index)} read fail {errno.EIO}\n")
        remedy = f"{name}: read: Input/output error (os error 5): look after its disk, and try again"
        why = "refused 13 DeviceFailed", remedy
        init(snapd, 3, env=env).gave(3, kept, "".join(f"snapd: {line}\n" for line in why))
        (place / name_of(index)).unlink()
        (place / name_of(index)).mkdir()
        run = init(snapd, 3)
        assert (
            (run.status, run.output.decode()) == (1, kept) and run.errors.startswith(f"snapd: {name}: Is a directory")
        ), run
        shutil.rmtree(place)


# ---- each of the errors ----

def test_a_user_who_isnt_root(snapd, _):
    """Each thing that may be in the way of one."""
    other = for_all(snapd)

    def nobody(*words):
        return as_nobody(other, "init", *words)

    place = folder(snapd, (2, None, 0))
    os.chmod(place, 0o755)
    # A file that it may only read shows that one was lost.
    before = files_in(place)
    nobody("D", "--count", 3).gave(3, errors=lost([name_of(1)], name_of(0), 2, 3))
    nobody("D", "--count", 3, "--missing-empty").failed_with(1, f"D/{name_of(0)}: Permission denied")
    os.chmod(place / name_of(0), 0o600)
    nobody("D", "--count", 3, "--missing-empty").failed_with(1, f"D/{name_of(0)}: Permission denied")
    os.chmod(place / name_of(0), 0o666)
    run = nobody("D", "--count", 3, "--missing-empty")
    assert (run.status, run.output) == (1, b"kept 0 of 3 number 2\n"), run
    assert run.errors.startswith(f"snapd: D/{name_of(1)}: Permission denied"), run
    assert files_in(place) == before
    # The folder may be written, and not its last file.
    os.chmod(place, 0o777)
    run = nobody("D", "--count", 3, "--missing-empty")
    assert (run.status, run.output) == (1, b"kept 0 of 3 number 2\nformatted 1 of 3\n"), run
    assert run.errors.startswith(f"snapd: D/{name_of(2)}: Permission denied"), run
    assert os.stat(place / name_of(1)).st_uid == NOBODY
    # A folder that may not be read, and one that may not be entered.
    for mode in (0o700, 0o744):
        os.chmod(place, mode)
        nobody("D", "--count", 3).failed_with(1, "D", "Permission denied")
    # Its own.
    nobody("E", "--count", 2).gave(0, made(2))
    assert files_in(snapd.file("E")) == fresh_files(2) and os.stat(snapd.file("E")).st_uid == NOBODY
    # The folder around it takes no name.
    os.chmod(snapd.folder, 0o755)
    nobody("G").failed_with(1, "G: Permission denied")
    assert not snapd.file("G").exists()


def test_no_room_and_only_to_be_read(snapd, _):
    if os.geteuid() != 0:
        raise Skipped("mounting wants root")
    for options, status, output, part in (
        ("size=36k", 3, "formatted 0 of 2\n", f"disk/D/{name_of(1)}: write: No space left on device"),
        ("size=1m,nr_inodes=1", 1, "", "disk/D: No space left on device"),
        ("size=1m,nr_inodes=3", 1, "formatted 0 of 2\n", f"disk/D/{name_of(1)}: No space left on device"),
        ("ro", 1, "", "disk/D: Read-only file system"),
    ):
        place = mounted(snapd, options)
        try:
            run = init(snapd, 2, folder="disk/D")
            assert (run.status, run.output.decode()) == (status, output) and part in run.errors, run
            if options != "ro":
                subprocess.run(["mount", "-o", "remount,size=1m,nr_inodes=100", place], check=True)
                init(snapd, 2, folder="disk/D").gave(0, made(2, kept=[(0, 0)] if output else ()))
                assert files_in(place / "D") == fresh_files(2)
                # A whole file is only read and locked, but it has to be writable.
                subprocess.run(["mount", "-o", "remount,ro", place], check=True)
                init(snapd, 2, folder="disk/D").failed_with(1, f"disk/D/{name_of(0)}: Read-only file system")
        finally:
            subprocess.run(["umount", "-l", place], check=True)
            place.rmdir()


def test_each_call_fails(snapd, _):
    """Each call in turn, with each error that is a fault of a disk or a file system: the file is named, and the next
    init continues."""
    place = snapd.file("D")
    run, events = changes.run(snapd, "init", "D", "--count", "2")
    run.gave(0, made(2))
    shutil.rmtree(place)
    named, done = "D", 0
    for at, event in enumerate(events, 1):
        if event[0] == "create":
            named = event[1]
        is_sync = event[0] == "sync" or event in (("open", "."), ("open", "D"))
        for number in changes.NOT_ALLOWED + changes.FAULTS if is_sync else (errno.EIO, errno.ENOSPC):
            run, _ = changes.run(snapd, "init", "D", "--count", "2", fault=(at, number))
            why = f"{os.strerror(number)} (os error {number})"
            if is_sync and number in changes.NOT_ALLOWED:
                # Names that can't be synced are as they are.
                run.gave(0, made(2))
            elif event[0] in ("write", "syncdata"):
                call = "write" if event[0] == "write" else "sync"
                line = f"snapd: {named}: {call}: {why}: look after its disk, and try again\n"
                run.gave(3, made(2)[: done * 17], f"snapd: refused 13 DeviceFailed\n{line}")
            else:
                what = "standard output" if event[0] == "say" else named
                run.gave(1, made(2)[: done * 17], f"snapd: {what}: {why}\n")
            again = init(snapd, 2)
            assert (again.status, again.errors) == (0, "") and files_in(place) == fresh_files(2), (event, again)
            shutil.rmtree(place)
        done += event[0] == "say"


def test_each_allocation_is_refused(snapd, _):
    """Refused 8, and files that were made stay; or the loss is reported, or the fault of a file."""
    place = folder(snapd, (2, None, 0))
    before = files_in(place)
    for more, status in (((), 3), (("--missing-empty",), 0)):
        allocations = count_of(snapd, "init", "D", "--count", 3, *more)
        refusals = 0
        for number in range(1, allocations + 1):
            (place / name_of(1)).unlink(missing_ok=True)
            run = init(snapd, 3, *more, env={"LD_PRELOAD": library("allocations"), "ALLOCATIONS_REFUSE": str(number)})
            assert run.status in (3, status), run
            refusals += run.errors == "snapd: refused 8 NoMemory\n"
            found = files_in(place)
            made_one = found.pop(name_of(1), b"")
            assert found == before and (not made_one or more), run
        assert refusals > 5, (more, allocations, refusals)


# ---- a power cut ----

def test_what_it_says_is_for_good(snapd, _):
    """Whatever unsynced data a power cut takes: a file that was reported, and the folder's own name, are synced."""
    for name in ("D", "D", "o/E", "./G"):
        snapd.file("o").mkdir(exist_ok=True)
        kept = enumerate((0, 0, 0)) if snapd.file(name).exists() else ()
        run, events = changes.run(snapd, "init", name, "--count", "3")
        run.gave(0, made(3, kept=kept))
        changes.told_when_for_good(events, changes.Open(), name, name)
    (snapd.file("D") / name_of(1)).unlink()
    (snapd.file("D") / name_of(2)).write_bytes(b"")
    (snapd.file("D") / name_of(0)).write_bytes(file_of(0, 3, 4))
    run, events = changes.run(snapd, "init", "D", "--count", "3", "--missing-empty")
    run.gave(0, made(3, kept=[(0, 4)]))
    changes.told_when_for_good(events, changes.Open(), "D", "D")


def test_it_is_killed_at_each_call(snapd, _):
    """The next init continues, and leaves nothing unsynced that the first one did; so does the one after that."""
    place = snapd.file("D")
    _, all_events = changes.run(snapd, "init", "D", "--count", "2")
    shutil.rmtree(place)
    for at in range(1, len(all_events) + 1):
        run, events = changes.run(snapd, "init", "D", "--count", "2", fault=(at, "kill"))
        assert run.status == -9 and events == all_events[: at - 1], (at, run, events)
        still = changes.Open()
        still.take_all(events)
        # A second one is cut off too, in the middle of what it has to do.
        run, events = changes.run(snapd, "init", "D", "--count", "2", fault=(1 + (len(all_events) - at) // 2, "kill"))
        still.take_all(events)
        run, events = changes.run(snapd, "init", "D", "--count", "2")
        assert (run.status, run.errors) == (0, ""), run
        changes.told_when_for_good(events, still, "D", "D")
        assert files_in(place) == fresh_files(2)
        shutil.rmtree(place)


# ---- two at once ----

def test_inits_at_once(snapd, _):
    """Of any number each file is made by one; each ends well, or says which file another one has."""
    count = 6
    for round_ in range(12):
        told = four_at_once(snapd, "--count", str(count))
        judge(told, count)
        assert any(status == 0 for _, _, status in told), told
        assert files_in(snapd.file("D")) == fresh_files(count)
        shutil.rmtree(snapd.file("D"))


def four_at_once(snapd, *more):
    """Four inits: the output, the errors and the status of each."""
    words, how = [snapd.path, "init", "D", *more], {"stdout": subprocess.PIPE, "stderr": subprocess.PIPE, "text": True}
    runs = [subprocess.Popen(words, cwd=snapd.folder, **how) for _ in range(4)]
    return [(*run.communicate(timeout=PATIENCE), run.returncode) for run in runs]


def judge(told, count):
    lines = [line for output, _, _ in told for line in output.splitlines()]
    for index in range(count):
        assert lines.count(f"formatted {index} of {count}") <= 1, told
    for output, errors, status in told:
        indexes = [int(line.split()[1]) for line in output.splitlines()]
        assert indexes == list(range(len(indexes))), told
        if status == 0:
            assert len(indexes) == count and errors == "", told
        else:
            assert (
                status == 1 and errors.startswith("snapd: D/") and errors.endswith(": it is in use by another snapd\n")
            ), told


def test_an_init_beside_one_that_is_stopped(snapd, _):
    """At each call of the one: the other makes what is missing, or names the file that the first one has; and then the
    first one continues."""
    _, events = changes.run(snapd, "init", "D", "--count", "2")

    def beside(at):
        folder_ = snapd.file(str(at))
        folder_.mkdir()
        here = snapd.at(folder_)
        with changes.stopped(here, "init", "D", "--count", "2", at=at) as first:
            second = init(here, 2)
        output, errors = first.communicate(timeout=PATIENCE)
        judge([(output, errors, first.returncode), (second.output.decode(), second.errors, second.status)], 2)
        assert first.returncode == 0 and files_in(folder_ / "D") == fresh_files(2), (at, output, errors)
        return second.status

    with ThreadPoolExecutor(8) as workers:
        statuses = list(workers.map(beside, range(1, len(events) + 1)))
    # The first one has no file yet, or one of both.
    assert statuses.count(0) >= 5 and statuses.count(1) > 10, statuses


def test_a_lost_file_is_made_once(snapd, _):
    """By one of several processes that ask for it."""
    place = folder(snapd, (5, None, 6))
    before = files_in(place)
    told = four_at_once(snapd, "--count", "3", "--missing-empty")
    judge(told, 3)
    assert any(status == 0 for _, _, status in told), told
    assert files_in(place) == before | {name_of(1): fresh_files(3)[name_of(1)]}
