"""`snapd doctor`: what it says of a folder's files and its file system, and that it changes nothing."""

import concurrent.futures
import contextlib
import errno
import fcntl
import json
import os
import re
import subprocess
import tempfile
import time

import remedies
import segment_file as layout
from preload import library
from program import Skipped
from serving import Server
from test_commands import by_nobody
from test_folder import files_in, folder, name_of, put
from test_locks import locked

KEPT = re.compile(r"D: its file system is \w+, and keeps locks\n")
STORES = re.compile(r"D: a store takes (\d+) us \(p50\), (\d+) us \(p99\): 200 stores of 1000 bytes\n")
SERVE_IT = "D: no segment is missing: serve it with snapd serve ADDR --dir D\n"
NO_WAIT = (
    "D: no disk was waited for in that time: it is memory, or a disk that answers before it keeps, "
    "and a power cut may take what was acknowledged\n"
)


def told(snapd, status, *words):
    """What it prints of the folder D."""
    run = snapd("doctor", "D", *words)
    assert run.status == status and not run.errors, run
    return run.output.decode()


def lines(snapd, status, *words):
    """The same, split into the lines before that of the file system and after it."""
    output = told(snapd, status, *words)
    kept = KEPT.search(output)
    assert kept, output
    return output[: kept.start()], output[kept.end() :]


def at(index, count, number):
    return f"D/{name_of(index)}: segment {index} of {count} number {number}\n"


def test_each_file_is_told_and_left(snapd, _):
    place = folder(snapd, 3)
    put(snapd, place / name_of(1), 1, 3, "hi").gave(0, "stored 1\n")
    before = files_in(place), {it.name: it.stat().st_mtime_ns for it in place.iterdir()}
    assert lines(snapd, 0) == (at(0, 3, 0) + at(1, 3, 1) + at(2, 3, 0) + SERVE_IT, "")
    assert before == (files_in(place), {it.name: it.stat().st_mtime_ns for it in place.iterdir()})
    # Under other names, in the order of these.
    (place / name_of(0)).rename(place / "z.seg")
    front = at(1, 3, 1) + at(2, 3, 0) + "D/z.seg: segment 0 of 3 number 0\n"
    assert lines(snapd, 0) == (front + SERVE_IT, "")


def test_the_folder_is_told_as_a_whole(snapd, _):
    place = folder(snapd, 3)
    (place / name_of(1)).unlink()
    missing = (
        "D: segment 1 of 3 is missing: bring its file back, "
        f"or make a new and empty one with snapd format D/{name_of(1)} --index 1 --count 3\n"
    )
    assert lines(snapd, 3) == (at(0, 3, 0) + at(2, 3, 0) + missing, "")
    (place / "twice.seg").write_bytes((place / name_of(2)).read_bytes())
    twice = f"D/twice.seg: it is segment 2 of 3, as D/{name_of(2)} is: move one of them out of D\n"
    assert lines(snapd, 3) == (at(0, 3, 0) + at(2, 3, 0) + "D/twice.seg: segment 2 of 3 number 0\n" + twice, "")
    for it in place.iterdir():
        it.unlink()
    assert lines(snapd, 3) == ("D: it has no segment file: make them with snapd init D --count N\n", "")


def test_what_is_wrong_with_a_file_comes_with_its_remedy(snapd, _):
    whole = layout.holding((5, b"x"), index=1, count=2)
    cut, torn = bytearray(whole), bytearray(whole)
    cut[layout.HEADER_GATE] = 0
    torn[layout.gate_at(5 % 3)] = 0
    go_on = "go on with the init or format that was cut off, or move it out of D"
    foreign = (
        "it is no segment file: bring a copy back if it was one, else move it out of D, "
        "or give it a name that doesn't end in .seg"
    )
    old = (
        f"it has the length of the old format: carry it over with snapd migrate D/{name_of(1)} NEW --index I "
        "--count N, and move it out of D"
    )
    none = (
        f"segment 1 of 2, but its slots give no answer: see snapd check D/{name_of(1)}, and bring a copy back, "
        f"or save what a slot holds by snapd check D/{name_of(1)} --slot S --value"
    )
    for data, line in (
        (bytes(cut), f"it was never formatted, or its header is gone: keep a copy first, then {go_on}"),
        (b"", f"it was never formatted, or its header is gone: {go_on}"),
        (b"x" * 100, foreign),
        (bytes(layout.OLD.length), old),
        (bytes(torn), none),
    ):
        place = folder(snapd, 2) if not snapd.file("D").exists() else snapd.file("D")
        (place / name_of(1)).write_bytes(data)
        assert lines(snapd, 3) == (at(0, 2, 0) + f"D/{name_of(1)}: {line}\n", ""), line
        assert (place / name_of(1)).read_bytes() == data


def test_one_bad_file_in_each_place(snapd, _):
    """First, in the middle and last, alone and beside one in use: each other file is reported as it is, and a server
    refuses the bad one by name, in both of its forms, and opens none."""
    place = folder(snapd, 3)
    files = [f"D/{name_of(index)}" for index in range(3)]
    fresh = files_in(place)
    told = [at(index, 3, 0) for index in range(3)]
    never = (
        "it was never formatted, or its header is gone: keep a copy first, then "
        "go on with the init or format that was cut off, or move it out of D"
    )
    foreign = (
        "it is no segment file: bring a copy back if it was one, else move it out of D, "
        "or give it a name that doesn't end in .seg"
    )
    for bad in range(3):
        whole, name = fresh[name_of(bad)], files[bad]
        closed, torn = bytearray(whole), bytearray(whole)
        closed[layout.HEADER_GATE] = 0
        torn[layout.gate_at(0)] = 0
        none = (
            f"segment {bad} of 3, but its slots give no answer: see snapd check {name}, and bring a copy back, "
            f"or save what a slot holds by snapd check {name} --slot S --value"
        )
        kinds = [(bytes(closed), never, 11), (b"x" * 100, foreign, 14), (bytes(torn), none, 10)]
        for data, line, number in kinds:
            (place / name_of(bad)).write_bytes(data)
            before = files_in(place)
            row = [*told[:bad], f"{name}: {line}\n", *told[bad + 1 :]]
            assert lines(snapd, 3) == ("".join(row), ""), (bad, line)
            run = snapd("serve", "127.0.0.1:0", "--dir", "D")
            assert run.status == 3 and run.output == b"" and name in run.errors, run
            assert not any(it in run.errors for it in files if it != name), run
            run = snapd("serve", "127.0.0.1:0", *files)
            assert run.status == 3 and run.output == b"", run
            assert run.errors.startswith(f"snapd: refused {number} ") and f"snapd: {name}: " in run.errors, run
            for other in {0, 1, 2} - {bad} if number == kinds[bad][2] else ():
                used = f"{files[other]}: a server or another command has it: ask it, as by snapd call ADDR status\n"
                with locked(place / name_of(other), fcntl.LOCK_EX):
                    beside = [*row[:other], used, *row[other + 1 :]]
                    assert lines(snapd, 3) == ("".join(beside), ""), (bad, other, line)
                    # A server is kept out by the lock, or finds the bad file before: by name,
                    # and then in its own order.
                    run = snapd("serve", "127.0.0.1:0", "--dir", "D")
                    is_first = bad < other and number != 10
                    assert run.status == (3 if is_first else 1) and files[bad if is_first else other] in run.errors, run
            assert files_in(place) == before
            (place / name_of(bad)).write_bytes(whole)
    assert lines(snapd, 0) == ("".join(told) + SERVE_IT, "")


def test_a_file_in_use_is_left_to_who_has_it(snapd, _):
    place = folder(snapd, 2)
    used = f"D/{name_of(0)}: a server or another command has it: ask it, as by snapd call ADDR status\n"
    with Server(snapd, "--dir", "D"):
        assert lines(snapd, 0) == (used + used.replace(name_of(0), name_of(1)), "")
    for index in range(2):
        with locked(place / name_of(index), fcntl.LOCK_EX):
            row = [at(0, 2, 0), at(1, 2, 0)]
            row[index] = used.replace(name_of(0), name_of(index))
            assert lines(snapd, 0) == ("".join(row), "")
    # One of them is waited for, a second long.
    snapd("init", "E", "--count", 8)
    with contextlib.ExitStack() as held:
        for index in range(8):
            held.enter_context(locked(snapd.file("E") / name_of(index), fcntl.LOCK_EX))
        began = time.monotonic()
        assert snapd("doctor", "E").output.count(b"has it: ask it") == 8
        assert 0.9 < time.monotonic() - began < 5
    # A reader doesn't exclude other readers.
    with locked(place / name_of(0), fcntl.LOCK_SH):
        assert lines(snapd, 0) == (at(0, 2, 0) + at(1, 2, 0) + SERVE_IT, "")


def test_stores_are_measured_on_a_file_of_its_own(snapd, _):
    place = folder(snapd, 1)
    before = files_in(place)
    for _ in range(2):
        front, behind = lines(snapd, 0, "--measure")
        assert front == at(0, 1, 0) + SERVE_IT
        found = STORES.match(behind)
        assert found and 0 < int(found[1]) <= int(found[2]), behind
        assert behind[found.end() :] in ("", NO_WAIT)
        assert files_in(place) == before
        # What one that was killed leaves is taken.
        left = layout.holding((1, b"v" * 1_000), (2, b"v" * 1_000), index=0, count=1)
        (place / "doctor-0.tmp").write_bytes(left)


def test_a_measure_that_is_killed_leaves_its_file_to_the_next(snapd, _):
    place = folder(snapd, 1)
    before = files_in(place)
    for _ in range(20):
        doctor = subprocess.Popen([snapd.path, "doctor", "D", "--measure"], cwd=snapd.folder, stdout=subprocess.DEVNULL)
        while doctor.poll() is None and not (place / "doctor-0.tmp").exists():
            time.sleep(0.001)
        doctor.kill()
        doctor.wait()
    assert STORES.search(told(snapd, 0, "--measure"))
    # One that was killed before it had its lock leaves an empty file, which is in nobody's way.
    left = {name: data for name, data in files_in(place).items() if data}
    assert left == before, left


def test_others_of_these_names_are_spared(snapd, _):
    """A file of another length, or in use, belongs to another process."""
    place = folder(snapd, 1)
    (place / "doctor-0.tmp").write_bytes(b"notes")
    (place / "doctor-1.tmp").write_bytes(bytes(layout.LENGTH))
    (place / "doctor-2.tmp").symlink_to("nowhere")
    with locked(place / "doctor-1.tmp", fcntl.LOCK_SH):
        assert STORES.search(told(snapd, 0, "--measure"))
        assert sorted(it.name for it in place.iterdir()) == ["doctor-0.tmp", "doctor-1.tmp", "doctor-2.tmp", name_of(0)]
    assert (place / "doctor-0.tmp").read_bytes() == b"notes"
    for number in range(1, 100):
        (place / f"doctor-{number}.tmp").unlink(missing_ok=True)
        (place / f"doctor-{number}.tmp").write_bytes(b"")
    before = files_in(place)
    crowded = "D: nothing could be stored: all names from doctor-0.tmp on are taken: remove what is left of them\n"
    assert told(snapd, 3, "--measure").endswith(crowded)
    assert files_in(place) == before


# ---- two at once ----

def at_once(count, do):
    """The results of `count` calls that begin together."""
    with concurrent.futures.ThreadPoolExecutor(count) as pool:
        return [it.result() for it in [pool.submit(do, number) for number in range(count)]]


def test_doctors_beside_doctors(snapd, _):
    """Each says what one alone says."""
    place = folder(snapd, 16)
    alone = snapd("doctor", "D").gave(0, snapd("doctor", "D").output)
    for _ in range(5):
        for run in at_once(8, lambda _: snapd("doctor", "D")):
            assert run == alone, run
    assert files_in(place) == {name_of(it): layout.holding((0, b""), index=it, count=16) for it in range(16)}


def test_measures_beside_measures(snapd, _):
    """Each has a file of its own, and leaves none."""
    place = folder(snapd, 1)
    before = files_in(place)
    for _ in range(5):
        for run in at_once(6, lambda _: snapd("doctor", "D", "--measure")):
            assert run.status == 0 and STORES.search(run.output.decode()), run
        assert files_in(place) == before


def test_doctors_beside_puts(snapd, _):
    """Neither is in the other's way."""
    place = folder(snapd, 2)

    def work(number):
        if number < 2:
            for k in range(1, 21):
                put(snapd, place / name_of(number), number, 2, f"{k}").gave(0, f"stored {k}\n")
        else:
            for _ in range(10):
                run = snapd("doctor", "D")
                assert run.status == 0 and not run.errors, run

    at_once(5, work)
    assert lines(snapd, 0) == (at(0, 2, 20) + at(1, 2, 20) + SERVE_IT, "")


def test_dumps_beside_puts(snapd, _):
    """Each dump has of each file what some put left, and no less than the one before."""
    place = folder(snapd, 3)

    def work(number):
        if number < 3:
            for k in range(1, 16):
                put(snapd, place / name_of(number), number, 3, f"{number}:{k}").gave(0, f"stored {k}\n")
            return []
        dumps = []
        for _ in range(10):
            run = snapd("dump", "D")
            assert run.status == 0 and not run.errors, run
            dumps.append([(it["number"], it["text"]) for it in json.loads(run.output)["segments"]])
        return dumps

    for dumps in at_once(5, work)[3:]:
        for before, after in zip(dumps, dumps[1:]):
            assert all(was[0] <= now[0] for was, now in zip(before, after)), (before, after)
        for dump in dumps:
            assert dump == [(k, f"{number}:{k}" if k else "") for number, (k, _) in enumerate(dump)], dump


# ---- file systems ----

def test_locks_that_keep_nobody_out(snapd, _):
    """As some file systems have them: two servers could have one file."""
    folder(snapd, 2)
    env = {"LD_PRELOAD": library("flocks"), "FLOCKS": "0"}
    run = snapd("doctor", "D", env=env)
    nobody = (
        r"D: its file system is \w+, whose locks keep nobody out: "
        r"two servers could have one file, so serve from another\n"
    )
    assert run.status == 3 and re.search(nobody, run.output.decode()), run
    assert run.output.decode().startswith(at(0, 2, 0) + at(1, 2, 0) + SERVE_IT)
    # Beside one that another process would have, if there were locks, and where there is no file yet.
    with locked(snapd.file("D") / name_of(1), fcntl.LOCK_EX):
        assert snapd("doctor", "D", env=env) == run
    snapd.file("E").mkdir()
    run = snapd("doctor", "E", env=env)
    assert run.status == 3 and re.search(nobody.replace("D:", "E:"), run.output.decode()), run


def test_a_file_system_without_locks(snapd, _):
    folder(snapd, 2)
    none = "No locks available (os error 37)"
    env = {"LD_PRELOAD": library("flocks"), "FLOCKS": str(errno.ENOLCK)}
    run = snapd("doctor", "D", env=env)
    front = "".join(f"D/{name_of(it)}: {none}\n" for it in range(2))
    assert run.status == 3 and run.output.decode().startswith(front), run
    assert run.output.decode().endswith(f", and D/{name_of(0)} can't be locked: {none}\n"), run
    for words in (("--dir", "D"), [f"D/{name_of(it)}" for it in range(2)]):
        snapd("serve", "127.0.0.1:0", *words, env=env).gave(1, errors=f"snapd: D/{name_of(0)}: {none}\n")


def test_memory_is_no_disk(snapd, _):
    if not os.path.ismount("/dev/shm"):
        raise Skipped("there is no /dev/shm")
    with tempfile.TemporaryDirectory(dir="/dev/shm") as room:
        os.symlink(room, snapd.file("D"))
        snapd("init", "D").gave(0, "formatted 0 of 1\n")
        output = told(snapd, 0, "--measure")
        assert "D: its file system is tmpfs, and keeps locks\n" in output, output
        found = STORES.search(output)
        assert output.endswith(found[0] + (NO_WAIT if int(found[1]) < 40 else "")), output


def test_a_full_disk_is_told(snapd, _):
    place = snapd.file("D")
    place.mkdir()
    mounted = subprocess.run(
        ["mount", "-t", "tmpfs", "-o", "size=8k", "tmpfs", place], stderr=subprocess.DEVNULL, check=False
    )
    if mounted.returncode:
        raise Skipped("nothing may be mounted here")
    try:
        output = told(snapd, 3, "--measure")
        assert output.endswith("D: nothing could be stored: write: No space left on device (os error 28)\n"), output
        assert list(place.iterdir()) == []
    finally:
        subprocess.run(["umount", place], check=True)


def test_folders_that_are_none(snapd, _):
    snapd("doctor", "D").gave(1, errors=remedies.failed("D", remedies.MISSING, remedies.no_folder("D")))
    snapd("doctor", "D/E").gave(1, errors=remedies.failed("D/E", remedies.MISSING, remedies.nowhere("D")))
    os.symlink("nowhere", snapd.file("L"))
    snapd("doctor", "L").gave(1, errors=remedies.failed("L", remedies.MISSING, remedies.of_nothing("L")))
    snapd.file("D").write_bytes(b"")
    snapd("doctor", "D").gave(1, errors="snapd: D: Not a directory (os error 20)\n")
    snapd("doctor").failed_with(2)
    snapd("doctor", "D", "E").failed_with(2)


def cannot_serve(index, reason, remedy):
    return f"D/{name_of(index)}: you can't serve it: {reason}\n{remedy}\n"


def test_a_folder_that_this_user_cant_serve(snapd, _):
    """Files that the user may only read, or not even that, and a folder that the user may not list: their owner is
    printed, and nothing is written. A file that the user could serve is reported as such."""
    place = folder(snapd, 2)
    files = [place / name_of(index) for index in range(2)]
    own, user, by_him = by_nobody(snapd)

    def told_him(*words):
        run = own("doctor", "D", *words, **by_him)
        assert run.status == 3 and not run.errors and b"no segment is missing" not in run.output, run
        return run.output.decode()

    for mode in (0o444, 0o000):
        for it in files:
            it.chmod(mode)
        owned = [remedies.owned(f"D/{name_of(index)}", files[index], user) for index in range(2)]
        wanted = [
            at(index, 2, 0) + cannot_serve(index, remedies.DENIED, owned[index]) if mode
            else f"D/{name_of(index)}: {remedies.DENIED}\n{owned[index]}\n"
            for index in range(2)
        ]
        assert told_him().startswith("".join(wanted)), (mode, told_him())
        # The other one he could serve.
        for index in range(2):
            files[index].chmod(0o666)
            row = list(wanted)
            row[index] = at(index, 2, 0)
            assert told_him().startswith("".join(row)), (mode, index)
            files[index].chmod(mode)
    for it in files:
        it.chmod(0o666)
    assert own("doctor", "D", **by_him).output.decode().startswith(at(0, 2, 0) + at(1, 2, 0) + SERVE_IT)
    # A user who can't make a file there measures nothing.
    place.chmod(0o555)
    run = own("doctor", "D", "--measure", **by_him)
    wanted = f"D: nothing could be stored: {remedies.DENIED}\n" + remedies.owned("D", place, user) + "\n"
    assert run.status == 3 and run.output.decode().endswith(wanted), run
    place.chmod(0o300)
    own("doctor", "D", **by_him).gave(1, errors=remedies.failed("D", remedies.DENIED, remedies.owned("D", place, user)))
    place.chmod(0o755)
    assert files_in(place) == {name_of(it): layout.holding((0, b""), index=it, count=2) for it in range(2)}


def test_a_pipe_that_this_user_may_only_read(snapd, _):
    """It is no regular file, and is reported without waiting for a writer, also beside a file in use."""
    place = folder(snapd, 1)
    own, user, by_him = by_nobody(snapd)
    os.mkfifo(place / "a.seg")
    (place / "a.seg").chmod(0o444)
    (place / name_of(0)).chmod(0o666)
    pipe = "D/a.seg: it is a pipe, a socket or a device: give the path of a regular file\n"
    for used in (False, True):
        with locked(place / name_of(0), fcntl.LOCK_EX) if used else contextlib.nullcontext():
            (place / "a.seg").rename(place / "z.seg") if used else None
            run = own("doctor", "D", **by_him)
            wanted = pipe.replace("a.seg", "z.seg") if used else pipe
            assert run.status == 3 and not run.errors and wanted in run.output.decode(), run


def test_a_folder_on_a_file_system_that_is_read_only(snapd, _):
    place = snapd.file("D")
    place.mkdir()
    mounted = subprocess.run(
        ["mount", "-t", "tmpfs", "-o", "size=256k", "tmpfs", place], stderr=subprocess.DEVNULL, check=False
    )
    if mounted.returncode:
        raise Skipped("nothing may be mounted here")
    try:
        snapd("init", "D", "--count", 2)
        subprocess.run(["mount", "-o", "remount,ro", place], check=True)
        front, behind = lines(snapd, 3, "--measure")
        assert front == "".join(
            at(index, 2, 0) + cannot_serve(index, remedies.READ_ONLY, remedies.read_only(f"D/{name_of(index)}"))
            for index in range(2)
        )
        assert behind == f"D: nothing could be stored: {remedies.READ_ONLY}\n" + remedies.read_only("D") + "\n"
        subprocess.run(["mount", "-o", "remount,rw", place], check=True)
        assert lines(snapd, 0) == (at(0, 2, 0) + at(1, 2, 0) + SERVE_IT, "")
    finally:
        subprocess.run(["umount", "-l", place], check=True)


def test_output_that_fails(snapd, _):
    folder(snapd, 1)
    with open("/dev/full", "wb") as full:
        run = snapd("doctor", "D", stdout=full)
    assert (run.status, run.errors) == (1, "snapd: standard output: No space left on device (os error 28)\n")
