"""The commands on real files: what they print, their statuses, and that a refused command changes nothing."""

import contextlib
import errno
import os
import pathlib
import re
import shutil
import stat
import subprocess

import remedies
import segment_file as layout
from program import Program, Skipped
from test_serve_disks import Disk, file_system
from waiting import is_read

GRAMMAR = pathlib.Path(__file__).resolve().parent.parent / "crates" / "snap_args" / "src" / "grammar.rt"
VERSION = re.search(r'VERSION: &str = "([0-9.]+)"', GRAMMAR.read_text())[1].encode()
# The second lines of commands, after that of a refusal.
DAMAGED = "F: its slots give no answer: see snapd check F"
FORMATTED = "F: it is formatted already: see snapd check F"
TOO_LONG = "F: a value has at most 4080 bytes: nothing was stored"


def unformatted(place="--index 0 --count 1", file="F"):
    format_it = f"snapd format {file} {place}"
    return f"{file}: it was never formatted, or its header is gone: keep a copy first, then {format_it}"


def of_another(index=0, count=1, file="F"):
    return f"{file}: it isn't the file of segment {index} of {count}: see snapd check {file}"


def of_length(length, file="F"):
    return f"{file}: it has {length} bytes, and a segment file has {layout.LENGTH}"


def cut_off(place, file="F"):
    return f"{file}: it has no byte: a format that was cut off: go on with snapd format {file} {place}"


def advised(reason):
    return f"{reason}: look after its disk, and try again"


def failed(reason, file="F"):
    return f"{file}: {advised(reason)}"


# What the system says of a call that fails.
REASONS = {errno.EIO: "Input/output error (os error 5)", errno.ENOSPC: "No space left on device (os error 28)"}


def test_first_run(snapd, _):
    snapd("format", "F").gave(0, "formatted 0 of 1\n")
    assert snapd.file().read_bytes() == layout.image([(0, b"")])
    snapd("get", "F").gave(0, b"")
    snapd("put", "F", stdin="hi").gave(0, "stored 1\n")
    snapd("get", "F").gave(0, b"hi")
    snapd("check", "F").gave(
        0,
        "header index 0 count 1\n"
        "slot 0 open number 0 length 0\nslot 1 open number 1 length 2\nslot 2 closed\nanswer number 1\n",
    )
    data = snapd.file().read_bytes()
    snapd("format", "F").refused(12, "AlreadyFormatted", FORMATTED)
    assert snapd.file().read_bytes() == data


def test_values_of_each_length(snapd, _):
    file = snapd.formatted()
    every = bytes(range(256))
    for number, value in enumerate([b"a", b"", b"x" * 4_080, every, every * 15 + bytes(240), b"\n"], start=1):
        snapd("put", "F", stdin=value).gave(0, f"stored {number}\n")
        snapd("get", "F").gave(0, value)
        assert layout.answer_of(file.read_bytes()) == (number, value)


def test_longest_value_and_one_more(snapd, _):
    file = snapd.formatted()
    snapd("put", "F", stdin=b"v" * 4_080).gave(0, "stored 1\n")
    data = file.read_bytes()
    for length in (4_081, 4_096, 1_000_000):
        snapd("put", "F", stdin=b"v" * length).refused(3, "TooLong", TOO_LONG)
        assert file.read_bytes() == data
    snapd("get", "F", "--index", 1, "--count", 2).refused(14, "WrongFile", of_another(1, 2))
    snapd("put", "F", "--count", 2).refused(14, "WrongFile", of_another(0, 2))
    assert file.read_bytes() == data


def test_a_hundred_stores(snapd, _):
    """`get` and `check` after each store, against the file as the format gives it."""
    file = snapd.formatted()
    stored = [(0, b"")]
    for number in range(1, 101):
        value = f"step {number}\n".encode() * (number % 7)
        snapd("put", "F", stdin=value).gave(0, f"stored {number}\n")
        snapd("get", "F").gave(0, value)
        stored.append((number, value))
        data = file.read_bytes()
        # The two newest are open. The slot with the closed gate has what a store left there, two numbers before.
        assert data == closed_behind(layout.holding(*stored[-3:]), (number + 1) % 3), number
        snapd("check", "F").gave(0, layout.findings(data))


def closed_behind(data, slot):
    """The file with the gate of this slot closed, and its body as it is."""
    data = bytearray(data)
    data[layout.gate_at(slot)] = 0
    return bytes(data)


def test_all_places_of_sixteen(snapd, _):
    for index in range(16):
        options = ("--index", index, "--count", 16)
        snapd("format", f"F{index}", *options).gave(0, f"formatted {index} of 16\n")
        snapd("put", f"F{index}", *options, stdin=f"{index}").gave(0, "stored 1\n")
        snapd("get", f"F{index}", *options).gave(0, f"{index}")
        snapd("get", f"F{index}").refused(14, "WrongFile", of_another(file=f"F{index}"))
        assert layout.header_of(snapd.file(f"F{index}").read_bytes()) == (index, 16)


def test_input_in_pieces(snapd, _):
    """A value may come in many small pieces."""
    snapd.formatted()
    feeder = subprocess.Popen(
        ["sh", "-c", "for i in 1 2 3 4 5; do printf piece$i; sleep 0.01; done"], stdout=subprocess.PIPE
    )
    snapd("put", "F", stdin=feeder.stdout).gave(0, "stored 1\n")
    feeder.stdout.close()
    assert feeder.wait() == 0
    snapd("get", "F").gave(0, b"piece1piece2piece3piece4piece5")


def test_wrong_lengths(snapd, _):
    for length in (1, 20_479, 20_480, 20_481, 28_671, 28_673):
        data = b"\xa5" * length
        snapd.file().write_bytes(data)
        more = layout.advice("F") if length == layout.OLD.length else of_length(length)
        for command in ("format", "put", "get", "check"):
            snapd(command, "F").refused(14, "WrongFile", more)
        snapd("put", "F", stdin=b"v" * 4_081).refused(3, "TooLong", TOO_LONG)
        assert snapd.file().read_bytes() == data


def test_a_format_that_was_cut_off(snapd, _):
    """It leaves a file of 0 bytes, and the command that continues is printed."""
    snapd.file().write_bytes(b"")
    for words, place in [
        (("put", "F"), "--index 0 --count 1"),
        (("get", "F"), "--index 0 --count 1"),
        (("get", "F", "--index", 1, "--count", 2), "--index 1 --count 2"),
        (("check", "F"), "--index I --count N"),
    ]:
        snapd(*words).refused(14, "WrongFile", cut_off(place))
        assert snapd.file().read_bytes() == b""
    snapd("format", "F").gave(0, "formatted 0 of 1\n")
    snapd("get", "F").gave(0, b"")


def test_unformatted(snapd, _):
    """A file of the right length may have lost its header but not its values, which a format overwrites."""
    zeros = bytes(layout.LENGTH)
    snapd.file().write_bytes(zeros)
    for command in ("get", "put"):
        snapd(command, "F", stdin="hi").refused(11, "Unformatted", unformatted())
    snapd("put", "F", "--index", 2, "--count", 3, stdin="hi").refused(
        11, "Unformatted", unformatted("--index 2 --count 3")
    )
    snapd("check", "F").gave(3, "header unformatted\n")
    assert snapd.file().read_bytes() == zeros
    snapd("format", "F", "--index", 2, "--count", 3).gave(0, "formatted 2 of 3\n")
    assert snapd.file().read_bytes() == layout.image([(0, b"")], 2, 3)


def test_paths_that_fail(snapd, _):
    snapd.file("folder").mkdir()
    for command in ("put", "get", "check"):
        snapd(command, "nowhere").failed_with(1, "nowhere: No such file or directory")
        snapd(command, "nowhere/F").failed_with(1, "nowhere/F: No such file or directory")
    snapd("put", "nowhere", stdin=b"v" * 4_081).failed_with(1, "nowhere: No such file or directory")
    snapd("format", "nowhere/F").failed_with(1, "nowhere/F: No such file or directory")
    for command in ("format", "put", "get", "check"):
        snapd(command, "folder").failed_with(1, "folder: Is a directory")
        snapd(command, "").failed_with(1, "No such file or directory")
    assert not snapd.file("nowhere").exists()


def test_a_path_of_no_regular_file(snapd, _):
    """A pipe, a socket or a device is none, whatever is to be done with it, and nothing waits for it."""
    os.mkfifo(snapd.file("pipe"))
    os.symlink("pipe", snapd.file("link"))
    snapd.formatted()
    os.mknod(snapd.file("socket"), stat.S_IFSOCK | 0o600)
    for path in ("pipe", "link", "socket", "/dev/null", "/dev/zero"):
        why = f"snapd: {path}: it is a pipe, a socket or a device: give the path of a regular file\n"
        for command in ("format", "put", "get", "check"):
            snapd(command, path, stdin="hi").gave(1, errors=why)
        for words in (
            ("check", path, "--slot", 0, "--value"), ("migrate", path, "new"), ("migrate", "F", path),
            ("serve", "127.0.0.1:0", path), ("serve", "127.0.0.1:0", "F", path),
        ):
            snapd(*words).gave(1, errors=why)
    assert not snapd.file("new").exists()
    snapd("init", "D").gave(0, "formatted 0 of 1\n")
    os.mkfifo(snapd.file("D/a.seg"))
    why = "D/a.seg: it is a pipe, a socket or a device: give the path of a regular file\n"
    for words in (("serve", "127.0.0.1:0", "--dir", "D"), ("dump", "D")):
        snapd(*words).gave(1, errors=f"snapd: {why}")
    run = snapd("doctor", "D")
    assert run.status == 3 and run.output.decode().startswith(why), run


# Each command on one file, and with which place its remedy formats the file.
FIRST, ANY = "--index 0 --count 1", "--index I --count N"
ALL = [
    (("format", "F"), FIRST),
    (("put", "F"), FIRST),
    (("put", "F", "--index", 2, "--count", 3), "--index 2 --count 3"),
    (("get", "F"), FIRST),
    (("check", "F"), ANY),
    (("check", "F", "--json"), ANY),
    (("check", "F", "--slot", 0, "--value"), ANY),
]
WRITERS, READERS = ALL[:3], ALL[3:]


def at(words, path):
    return [path if it == "F" else it for it in words]


def by_nobody(snapd):
    """A copy of the program that each user can run, a user other than root, and how that user runs it."""
    os.chmod(snapd.folder, 0o755)
    if os.geteuid() != 0:
        return snapd, os.geteuid(), {}
    user = 65_534
    run = {"user": user, "group": user, "extra_groups": []}
    return Program(shutil.copy(snapd.path, snapd.folder / "snapd-of-all"), snapd.folder), user, run


def test_what_isnt_there_comes_with_its_remedy(snapd, _):
    """A file, its folder, and what a link names: each command says what makes it, and makes nothing."""
    os.symlink("nowhere/F", snapd.file("L"))
    for words, place in ALL:
        if words[0] != "format":
            wanted = remedies.failed("F", remedies.MISSING, remedies.no_file("F", place))
            snapd(*words, stdin="hi").gave(1, errors=wanted)
        for path, remedy in (
            ("nowhere/F", remedies.nowhere("nowhere")), ("a/b/F", remedies.nowhere("a/b")),
            ("L", remedies.of_nothing("L")),
        ):
            snapd(*at(words, path), stdin="hi").gave(1, errors=remedies.failed(path, remedies.MISSING, remedy))
    snapd("migrate", "F", "G").gave(1, errors=remedies.failed("F", remedies.MISSING))
    snapd.file("OLD").write_bytes(layout.OLD.holding((1, b"hi")))
    snapd("migrate", "OLD", "nowhere/F").gave(
        1, errors=remedies.failed("nowhere/F", remedies.MISSING, remedies.nowhere("nowhere"))
    )
    assert sorted(it.name for it in snapd.folder.iterdir()) == ["L", "OLD"]


def test_what_is_denied_comes_with_its_remedy(snapd, _):
    """By the file, by its folder, and by one above that, to a user other than root: the owner and the user are
    printed."""
    file = snapd.formatted()
    folder = snapd.file("D")
    (folder / "E").mkdir(parents=True)
    snapd.formatted("D/F")
    snapd.formatted("D/E/F")
    before = {it: it.read_bytes() for it in snapd.folder.rglob("F")}
    own, user, by_him = by_nobody(snapd)

    def are_denied(commands, path, place, there):
        remedy = remedies.owned(place, there, user)
        for words, _ in commands:
            own(*at(words, path), stdin="hi", **by_him).gave(1, errors=remedies.failed(path, remedies.DENIED, remedy))

    for mode, denied, allowed in ((0o444, WRITERS, READERS), (0o000, ALL, [])):
        file.chmod(mode)
        are_denied(denied, "F", "F", file)
        for words, _ in allowed:
            assert own(*words, **by_him).status == 0
    # A new file in a folder that takes none, and files in one that isn't to be entered.
    folder.chmod(0o555)
    are_denied(ALL[:1], "D/G", "D", folder)
    folder.chmod(0o444)
    are_denied(ALL, "D/F", "D", folder)
    are_denied(ALL, "D/E/F", "D", folder)
    folder.chmod(0o755)
    file.chmod(0o600)
    if os.geteuid() == 0:
        # It is his own.
        os.chown(file, user, user)
        file.chmod(0o400)
        are_denied(WRITERS, "F", "F", file)
        wanted = f"user {user} owns it, its mode is 0400, and you are user {user}: give yourself"
        assert wanted in remedies.owned("F", file, user)
    assert before == {it: it.read_bytes() for it in snapd.folder.rglob("F")}


def test_a_file_system_that_is_read_only_comes_with_its_remedy(snapd, _):
    with file_system(snapd, "size=256k"):
        snapd.formatted("small/F")
        subprocess.run(["mount", "-o", "remount,ro", snapd.file("small")], check=True)
        for words, _ in WRITERS:
            for path in ("small/F", "small/G")[: 2 if words[0] == "format" else 1]:
                run = snapd(*at(words, path), stdin="hi")
                run.gave(1, errors=remedies.failed(path, remedies.READ_ONLY, remedies.read_only(path)))
        for words, _ in READERS:
            assert snapd(*at(words, "small/F")).status == 0


def test_no_permission(snapd, _):
    """As a user that may read the file but not write it, and one that may do neither."""
    file = snapd.formatted()
    snapd, _, run = by_nobody(snapd)
    snapd("put", "F", stdin="hi").gave(0, "stored 1\n")
    data = file.read_bytes()
    for mode, writers, readers in (
        (0o444, ("format", "put"), ("get", "check")), (0o000, ("format", "put", "get", "check"), ()),
    ):
        os.chmod(file, mode)
        for command in writers:
            snapd(command, "F", stdin="hi", **run).failed_with(1, "F: Permission denied")
        # What only reads needs no more.
        for command in readers:
            run_of = snapd(command, "F", **run)
            assert run_of.status == 0 and run_of.errors == "", run_of
            assert command == "check" or run_of.output == b"hi"
    os.chmod(file, 0o600)
    assert file.read_bytes() == data


def test_wrong_words(snapd, _):
    for words, parts in [
        ([], ["requires a subcommand"]),
        (["frobnicate"], ["unrecognized subcommand 'frobnicate'"]),
        (["serve", "127.0.0.1:1"], ["no FILE and no --dir is given"]),
        (["serve", "127.0.0.1:1", "F", "--dir", "D"], ["FILEs and --dir are given"]),
        (["get"], ["<FILE>"]),
        (["get", "F", "G"], ["unexpected argument 'G'"]),
        (["get", "F", "--index"], ["--index"]),
        (["get", "F", "--index", "x"], ["invalid value 'x'"]),
        (["get", "F", "--index", "256"], ["invalid value '256'"]),
        (["get", "F", "--index=-1"], ["invalid value '-1'"]),
        (["get", "F", "--index", "1"], ["the index 1 is not below the count 1"]),
        (["format", "F", "--index", "16", "--count", "16"], ["the index 16 is not below the count 16"]),
        (["put", "F", "--count", "0"], ["the count 0 is not from 1 to 16"]),
        (["put", "F", "--count", "17"], ["the count 17 is not from 1 to 16"]),
        (["check", "F", "--index", "0"], ["unexpected argument '--index'"]),
        (["migrate"], ["<OLD>", "<NEW>"]),
        (["migrate", "F"], ["<NEW>"]),
        (["migrate", "F", "G", "H"], ["unexpected argument 'H'"]),
        (["migrate", "F", "G", "--index", "x"], ["invalid value 'x'"]),
        (["migrate", "F", "G", "--index", "1"], ["the index 1 is not below the count 1"]),
        (["migrate", "F", "G", "--count", "17"], ["the count 17 is not from 1 to 16"]),
        (["get", "F", "--index", "0", "--index", "0"], ["--index"]),
    ]:
        run = snapd(*words).failed_with(2, *parts)
        assert "--help" in run.errors, run.errors
        assert not snapd.file().exists() and not snapd.file("G").exists(), f"{words} made a file"
    assert snapd("get", b"\xff".decode("utf-8", "surrogateescape")).failed_with(2, "UTF-8")
    # Words are judged before paths.
    snapd("get", "nowhere", "--count", 0).failed_with(2)


def test_help_and_version(snapd, _):
    for words in (["--help"], ["-h"], ["help"]):
        text = snapd(*words)
        assert text.status == 0 and text.errors == "", text
        for command in ("format", "put", "get", "check", "migrate", "script"):
            assert command in text.output.decode()
        assert "Example:" in text.output.decode()
    for command in ("format", "put", "get", "check", "migrate"):
        for words in ([command, "--help"], [command, "-h"], ["help", command]):
            text = snapd(*words)
            assert text.status == 0 and text.errors == "", text
            printed = text.output.decode()
            paths = ("<OLD>", "<NEW>") if command == "migrate" else ("<FILE>",)
            assert f"snapd {command}" in printed and "Example:" in printed, printed
            assert all(path in printed for path in paths), printed
            if command != "check":
                assert "[default: 0]" in printed and "[default: 1]" in printed, printed
        version = snapd(command, "--version")
        assert version.status == 0 and version.errors == "" and version.output.split()[1] == VERSION, version
        assert version.output.split(b" ", 1)[1] == snapd("--version").output.split(b" ", 1)[1]
    # The second line says what the program was built from, and whether this build was proved.
    first, second, rest = snapd("--version").output.split(b"\n")
    assert (first, rest) == (b"snapd " + VERSION, b"")
    assert re.fullmatch(
        rb"(not )?proved; ([0-9a-f]{12}\+?|no commit), rattle-kit-\S+ logic [0-9a-f]{16}", second
    ), second
    snapd("-V").gave(0, snapd("--version").output)


def test_output_that_fails(snapd, _):
    """A full or a broken standard output is status 1, and a value that was stored stays stored."""
    file = snapd.formatted()
    snapd("put", "F", stdin="hi").gave(0, "stored 1\n")
    if not pathlib.Path("/dev/full").exists():
        raise Skipped("there is no /dev/full")
    for words in (["get", "F"], ["check", "F"], ["--help"], ["put", "--version"]):
        with open("/dev/full", "wb") as full:
            snapd(*words, stdout=full).failed_with(1, "standard output: No space left on device")
        read, write = os.pipe()
        os.close(read)
        snapd(*words, stdout=write).failed_with(1, "standard output: Broken pipe")
        os.close(write)
    with open("/dev/full", "wb") as full:
        snapd("put", "F", stdin="yo", stdout=full).failed_with(
            1, "stored 2", "standard output: No space left on device"
        )
        snapd("format", "G", stdout=full).failed_with(1, "standard output: No space left on device")
    snapd("get", "F").gave(0, b"yo")
    snapd("get", "G").gave(0, b"")
    assert layout.answer_of(file.read_bytes()) == (2, b"yo")


def test_closed_streams(snapd, _):
    """A file that is opened takes the lowest free number, so with a standard stream closed the program's own text could
    be written into the segment."""
    file = snapd.formatted()
    snapd("put", "F", stdin="hi").gave(0, "stored 1\n")
    data = file.read_bytes()
    for closed, name in [("<&-", "standard input"), (">&-", "standard output"), ("2>&-", None), (">&- 2>&-", None)]:
        for command in ("get F", "put F", "check F", "format F", "format G"):
            line = f'printf yo | exec "$0" {command} {closed}' if "<" not in closed else f'exec "$0" {command} {closed}'
            run = subprocess.run(["sh", "-c", line, snapd.path], cwd=snapd.folder, capture_output=True, text=True)
            assert run.returncode == 1 and run.stdout == "", (line, run)
            if name:
                assert run.stderr.startswith(f"snapd: {name}: Bad file descriptor"), (line, run)
            assert file.read_bytes() == data, line
            assert not snapd.file("G").exists(), line


def test_full_disk(snapd, _):
    """A new file on a disk that has no room for it."""
    if os.geteuid() != 0:
        raise Skipped("mounting a small disk wants root")
    disk = snapd.file("disk")
    disk.mkdir()
    mounted = subprocess.run(["mount", "-t", "tmpfs", "-o", "size=8k", "tmpfs", disk], capture_output=True, text=True)
    if mounted.returncode != 0:
        raise Skipped(f"no small disk can be mounted: {mounted.stderr.strip()}")
    try:
        (disk / "filler").write_bytes(b"x" * 8_192)
        no_room = failed("write: No space left on device (os error 28)", "disk/F")
        snapd("format", "disk/F").refused(13, "DeviceFailed", no_room)
        (disk / "filler").unlink()
        snapd("format", "disk/F").refused(13, "DeviceFailed", no_room)
        snapd("get", "disk/F").refused(11, "Unformatted", unformatted(file="disk/F"))
    finally:
        subprocess.run(["umount", "-l", disk], check=True)


def test_the_reason_of_a_failed_call_is_told(snapd, _):
    """Each kind of call of each command, as the system says it, with the file's name."""
    disk = Disk(snapd)
    made = layout.image([(0, b"")])
    for why, text in REASONS.items():
        for command, calls, before in [
            ("format", ("read", "write", "sync"), bytes(layout.LENGTH)),
            ("put", ("read", "write", "sync"), made),
            ("get", ("read", "sync"), made),
            ("check", ("read",), made),
        ]:
            for call in calls:
                snapd.file().write_bytes(before)
                disk.says(f"F {call} fail {why}")
                run = snapd(command, "F", stdin="hi", env=disk.env)
                run.refused(13, "DeviceFailed", failed(f"{call}: {text}"))
                disk.says()
                if command == "format":
                    snapd("format", "F").gave(0, "formatted 0 of 1\n")
                assert layout.answer_of(snapd.file().read_bytes()) in ((0, b""), (1, b"hi"))


def test_a_folder_that_isnt_synced(snapd, _):
    """If the system syncs no folders, or not for this user, nothing has failed. Each other reason ends a format, and
    the next one continues."""
    disk, place = Disk(snapd), snapd.file("D")
    place.mkdir()
    made, file = "formatted 0 of 1\n", place / "F"
    for why in (errno.EINVAL, errno.EOPNOTSUPP, errno.ENOSYS, errno.EROFS, errno.EACCES, errno.EPERM):
        disk.says(f"D sync fail {why}")
        snapd("format", "D/F", env=disk.env).gave(0, made)
        file.unlink()
    for why, text in REASONS.items():
        disk.says(f"D sync fail {why}")
        snapd("format", "D/F", env=disk.env).gave(1, errors=remedies.failed("D/F", text))
        assert file.read_bytes() == b""
        disk.says()
        snapd("format", "D/F", env=disk.env).gave(0, made)
        file.unlink()
    # One in which files may be made and which may not be read can't be opened to be synced.
    own, user, by_him = by_nobody(snapd)
    if by_him:
        os.chown(place, user, user)
    place.chmod(0o300)
    own("format", "D/F", **by_him).gave(0, made)
    place.chmod(0o700)


@contextlib.contextmanager
def putting(snapd, value):
    """A `put` that has its file and has read these bytes of its value. What comes last is its end."""
    put = subprocess.Popen(
        [snapd.path, "put", "F"], cwd=snapd.folder, stdin=subprocess.PIPE, stdout=subprocess.PIPE,
        stderr=subprocess.PIPE
    )
    try:
        put.stdin.write(value)
        put.stdin.flush()
        is_read(put.stdin)
        yield put
    finally:
        put.kill()
        put.wait()


def test_a_file_that_goes_away_under_a_put(snapd, _):
    moved = "sync: its path doesn't name it any more: it was moved, removed or replaced"
    for how, reason in (("moved", moved), ("cut", "read: failed to fill whole buffer")):
        file = snapd.file()
        file.unlink(missing_ok=True)
        snapd.formatted()
        with putting(snapd, b"hi") as put:
            if how == "moved":
                file.rename(snapd.file("G"))
            else:
                os.truncate(file, 0)
            output, errors = put.communicate()
            told = f"snapd: refused 13 DeviceFailed\nsnapd: {failed(reason)}\n"
            assert (put.returncode, output, errors.decode()) == (3, b"", told), (how, errors)
    assert snapd.file("G").read_bytes() == layout.image([(0, b"")])
