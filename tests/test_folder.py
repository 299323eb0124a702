"""A folder with all segments' files: made by `snapd init`, as often as it is run, and served by `snapd serve --dir`."""

import fcntl
import os
import pathlib
import re
import signal
import subprocess
import time

import remedies
import segment_file as layout
from program import Program, Skipped
from serving import Server, stored, update
from test_commands import FORMATTED, of_length, unformatted
from test_locks import locked


def name_of(index):
    return f"segment-{index:02}.seg"


def made(count, *, kept=()):
    """What `init` prints where it makes all files but these, which it keeps at these numbers."""
    kept = dict(kept)
    lines = (
        f"kept {index} of {count} number {kept[index]}\n" if index in kept else f"formatted {index} of {count}\n"
        for index in range(count)
    )
    return "".join(lines)


def folder(snapd, count, name="D"):
    """A folder that was just made."""
    snapd("init", name, "--count", count).gave(0, made(count))
    return snapd.file(name)


def files_in(place):
    """What the files of a folder hold, by their names."""
    return {it.name: it.read_bytes() for it in pathlib.Path(place).iterdir()}


def fresh_files(count):
    return {name_of(index): layout.holding((0, b""), index=index, count=count) for index in range(count)}


def put(snapd, place, index, count, value):
    return snapd("put", place, "--index", index, "--count", count, stdin=value)


def said(line):
    """Standard error where a folder's files are refused."""
    return f"snapd: {line}\n"


def serve(snapd, *more, folder="D"):
    return snapd("serve", "127.0.0.1:0", "--dir", folder, "--connections", 0, *more)


# ---- init ----

def test_init_makes_each_file_and_then_keeps_it(snapd, _):
    place = folder(snapd, 4)
    assert files_in(place) == fresh_files(4)
    snapd("init", "D", "--count", 4).gave(0, made(4, kept=enumerate([0] * 4)))
    put(snapd, place / name_of(2), 2, 4, "hi").gave(0, "stored 1\n")
    put(snapd, place / name_of(2), 2, 4, "ho").gave(0, "stored 2\n")
    before = files_in(place)
    snapd("init", "D", "--count", 4).gave(0, made(4, kept=enumerate([0, 0, 2, 0])))
    assert files_in(place) == before
    snapd("get", place / name_of(2), "--index", 2, "--count", 4).gave(0, "ho")


def test_init_makes_one_file_without_a_count_and_sixteen_at_most(snapd, _):
    snapd("init", "D").gave(0, made(1))
    assert files_in(snapd.file("D")) == fresh_files(1)
    snapd("init", "E", "--count", 16).gave(0, made(16))
    assert files_in(snapd.file("E")) == fresh_files(16)
    for count in (0, 17, 256, "x", "-1"):
        snapd("init", "G", "--count", count).failed_with(2)
    snapd("init").failed_with(2)
    assert not snapd.file("G").exists()


def test_init_takes_names_of_any_form(snapd, _):
    for name in ("a b", "c d/", "./x", "ü'\"$", "-", ".hidden", "dots.seg"):
        words = ("init", *(("--",) if name.startswith("-") else ()), name)
        snapd(*words).gave(0, made(1))
        snapd(*words).gave(0, made(1, kept=[(0, 0)]))
        assert files_in(snapd.file(name)) == fresh_files(1)
    # A folder that is reached by a link.
    os.symlink("a b", snapd.file("link"))
    snapd("init", "link").gave(0, made(1, kept=[(0, 0)]))


def test_init_goes_on_where_it_was_cut_off(snapd, _):
    """Where a file was stored to since, only with the word for that."""
    place = folder(snapd, 5)

    def cut_off():
        (place / name_of(0)).unlink()
        (place / name_of(1)).write_bytes(b"")
        (place / name_of(2)).write_bytes(bytes(layout.LENGTH))
        # All but the byte that opens the header's gate.
        cut = bytearray(layout.holding((0, b""), index=3, count=5))
        cut[layout.HEADER_GATE] = 0
        (place / name_of(3)).write_bytes(cut)

    cut_off()
    snapd("init", "D", "--count", 5).gave(0, made(5, kept=[(4, 0)]))
    assert files_in(place) == fresh_files(5)
    put(snapd, place / name_of(4), 4, 5, "hi").gave(0, "stored 1\n")
    cut_off()
    before = files_in(place)
    missing = ", ".join(f"D/{name_of(index)}" for index in range(4))
    snapd("init", "D", "--count", 5).gave(3, errors=said(
        f"{missing}: missing or never formatted, though D/{name_of(4)} holds number 1: "
        "restore what is missing from a backup, or make it new and empty with snapd init D --count 5 --missing-empty"
    ))
    assert files_in(place) == before
    snapd("init", "D", "--count", 5, "--missing-empty").gave(0, made(5, kept=[(4, 1)]))
    assert files_in(place) == fresh_files(5) | {name_of(4): before[name_of(4)]}


def test_init_goes_on_where_the_slots_are_torn(snapd, _):
    """What a crash may leave of blocks that were being written."""
    place = folder(snapd, 1)
    whole = fresh_files(1)[name_of(0)]
    several = {5_000: 1, 12_288: 0xA5, 16_384: 2}
    alone = {0: 0x11}, {4_096: 0x11}, {4_097: 1}, {8_200: 0xFF}, {12_288: 0xA5}, {20_480: 1}, {28_671: 1}
    for places in (*alone, several):
        torn = bytearray(whole)
        torn[layout.HEADER_GATE] = 0
        for at, byte in places.items():
            torn[at] = byte
        (place / name_of(0)).write_bytes(torn)
        snapd("init", "D").gave(0, made(1))
        assert files_in(place) == fresh_files(1)


def test_init_leaves_a_value_whose_header_is_gone(snapd, _):
    place = folder(snapd, 2)
    file = place / name_of(1)
    put(snapd, file, 1, 2, "hi").gave(0, "stored 1\n")
    data = bytearray(file.read_bytes())
    data[layout.HEADER_GATE] = 0
    file.write_bytes(data)
    more = unformatted("--index 1 --count 2", f"D/{name_of(1)}")
    for _ in range(2):
        run = snapd("init", "D", "--count", 2)
        run.gave(3, "kept 0 of 2 number 0\n", f"snapd: refused 11 Unformatted\nsnapd: {more}\n")
        assert file.read_bytes() == data
    data[layout.HEADER_GATE] = layout.OPEN
    file.write_bytes(data)
    snapd("init", "D", "--count", 2).gave(0, made(2, kept=[(0, 0), (1, 1)]))


def test_init_refuses_what_is_no_file_of_its_own(snapd, _):
    """It stops at the first that it can't take, and that one stays as it is."""
    whole = layout.holding((0, b""), index=1, count=3)
    mark, zero, closed = bytearray(whole), bytearray(whole), bytearray(whole)
    mark[0] = 0x54
    zero[11] = 1
    closed[layout.gate_at(0)] = 0
    name = f"D/{name_of(1)}"
    taken = ("refused 12 AlreadyFormatted", FORMATTED.replace("F", name, 1).replace("check F", f"check {name}"))
    wrong = "refused 14 WrongFile"
    old = layout.advice(name)
    for data, lines in (
        (layout.holding((0, b""), index=2, count=3), taken),
        (bytes(mark), taken),
        (bytes(zero), taken),
        (bytes(closed), taken),
        (b"x", (wrong, of_length(1, name))),
        (whole[:-1], (wrong, of_length(layout.LENGTH - 1, name))),
        (bytes(layout.OLD.length), (wrong, old)),
    ):
        place = snapd.file("D")
        place.mkdir()
        (place / name_of(1)).write_bytes(data)
        run = snapd("init", "D", "--count", 3)
        run.gave(3, "formatted 0 of 3\n", "".join(f"snapd: {line}\n" for line in lines))
        assert files_in(place) == {name_of(0): fresh_files(3)[name_of(0)], name_of(1): data}
        for it in place.iterdir():
            it.unlink()
        place.rmdir()


def test_init_refuses_a_folder_of_more_segments(snapd, _):
    place = folder(snapd, 4)
    before = files_in(place)
    line = f"D/{name_of(2)}: it is none of 2 segments: give the count that D was made with, or move it out of there"
    snapd("init", "D", "--count", 2).gave(3, errors=said(line))
    assert files_in(place) == before
    # Of fewer segments, the files of it say so, also where the first of them is lost.
    for lost in ((), (0,), (0, 1, 2)):
        for index in lost:
            (place / name_of(index)).unlink(missing_ok=True)
        first = f"D/{name_of(len(lost))}"
        line = (
            f"{first}: it is of 4 segments, and --count is 5: give --count 4, or move it out of there; "
            "a folder of more is made of a dump, by snapd load"
        )
        snapd("init", "D", "--count", 5).gave(3, errors=said(line))
        assert files_in(place) == {name: data for name, data in before.items() if (place / name).exists()}
    snapd("init", "D", "--count", 4).gave(0, made(4, kept=[(3, 0)]))
    # Before anything is made, whatever the further file is, and however it is numbered.
    for name in ("segment-02.seg", "segment-1.seg", "segment-.seg", "segment-old.seg"):
        other = snapd.file(f"E {name}")
        other.mkdir()
        (other / name).write_bytes(b"")
        run = snapd("init", other.name, "--count", 2)
        run.gave(3, errors=said(
            f"{other.name}/{name}: it is none of 2 segments: "
            f"give the count that {other.name} was made with, or move it out of there"
        ))
        assert files_in(other) == {name: b""}


def test_init_leaves_other_files_alone(snapd, _):
    place = folder(snapd, 1)
    others = {"notes": b"1", "segment-05.seg~": b"2", "segment-05": b"5"}
    for name, data in others.items():
        (place / name).write_bytes(data)
    with open(os.fsencode(place) + b"/segment-\xff.seg", "wb") as strange:
        strange.write(b"6")
    snapd("init", "D").gave(0, made(1, kept=[(0, 0)]))
    found = {os.fsencode(it.name): it.read_bytes() for it in place.iterdir()}
    assert found == {
        name_of(0).encode(): fresh_files(1)[name_of(0)],
        b"segment-\xff.seg": b"6",
        **{name.encode(): data for name, data in others.items()},
    }


def test_init_in_no_folder(snapd, _):
    no_entry, no_folder = remedies.MISSING, "Not a directory (os error 20)"
    snapd("init", "A/B").gave(1, errors=remedies.failed("A/B", no_entry, remedies.nowhere("A")))
    assert not snapd.file("A").exists()
    snapd.file("A").write_bytes(b"hi")
    snapd("init", "A").gave(1, errors=said(f"A: {no_folder}"))
    snapd("init", "A/B").gave(1, errors=said(f"A/B: {no_folder}"))
    assert snapd.file("A").read_bytes() == b"hi"
    snapd("init", "").gave(1, errors=said(f": {no_entry}"))
    os.symlink("nowhere", snapd.file("L"))
    snapd("init", "L").gave(1, errors=remedies.failed("L", no_entry, remedies.of_nothing("L")))
    snapd("init", "x" * 300).failed_with(1, "File name too long (os error 36)")
    # A folder where a file is to be.
    (snapd.file("D") / name_of(0)).mkdir(parents=True)
    snapd("init", "D").gave(1, errors=said(f"D/{name_of(0)}: Is a directory (os error 21)"))


def test_init_where_the_folder_takes_no_file(snapd, _):
    """Root may write everywhere, so this runs as another user."""
    if os.geteuid() != 0:
        raise Skipped("it needs root")
    place = folder(snapd, 2)
    for it in (snapd.folder, place):
        os.chmod(it, 0o755)
    (place / name_of(1)).unlink()
    program = pathlib.Path(snapd.folder) / "snapd-of-all"
    program.write_bytes(pathlib.Path(snapd.path).read_bytes())
    program.chmod(0o755)
    other = Program(program, snapd.folder)
    first, second = (f"D/{name_of(it)}" for it in range(2))

    def denied(path, *owner):
        return remedies.failed(path, remedies.DENIED, remedies.owned(*owner))

    other("init", "D", "--count", 2, user=65_534).gave(1, errors=denied(first, first, place / name_of(0)))
    os.chmod(place / name_of(0), 0o666)
    run = other("init", "D", "--count", 2, user=65_534)
    # The file isn't there: its folder is in the way.
    run.gave(1, "kept 0 of 2 number 0\n", denied(second, "D", place))
    other("init", "E", user=65_534).gave(1, errors=denied("E", ".", snapd.folder))
    assert files_in(place) == {name_of(0): fresh_files(2)[name_of(0)]}


def test_init_of_a_file_in_use(snapd, _):
    place = folder(snapd, 2)
    in_use = f"snapd: D/{name_of(1)}: it is in use by another snapd\n"
    # A writer excludes the check whether it was stored to; a reader only excludes writers.
    for how, output in ((fcntl.LOCK_EX, ""), (fcntl.LOCK_SH, "kept 0 of 2 number 0\n")):
        with locked(place / name_of(1), how):
            snapd("init", "D", "--count", 2).gave(1, output, in_use)
    with Server(snapd, "--dir", "D"):
        snapd("init", "D", "--count", 2).gave(1, errors=in_use.replace(name_of(1), name_of(0)))
    assert files_in(place) == fresh_files(2)


def test_init_whose_output_fails(snapd, _):
    with open("/dev/full", "wb") as full:
        run = snapd("init", "D", "--count", 2, stdout=full)
    assert (run.status, run.errors) == (1, "snapd: standard output: No space left on device (os error 28)\n"), run
    # The first file was made, and no other one.
    assert files_in(snapd.file("D")) == {name_of(0): fresh_files(2)[name_of(0)]}
    snapd("init", "D", "--count", 2).gave(0, made(2, kept=[(0, 0)]))


def test_init_with_closed_streams_or_short_files(snapd, _):
    for stream in "012":
        run = subprocess.run(
            ["sh", "-c", f'exec "$0" init D {stream}>&-', snapd.path], cwd=snapd.folder, capture_output=True,
        )
        assert run.returncode == 1, run
    words = ["sh", "-c", 'ulimit -f 1 && exec "$0" init D', snapd.path]
    run = subprocess.run(words, cwd=snapd.folder, capture_output=True)
    assert run.returncode == 1 and b"raise the limit (ulimit -f)" in run.stderr, run
    assert not snapd.file("D").exists()


def test_the_name_of_a_new_folder_is_made_to_last(snapd, _):
    """Its parent is synced before any file is made in it, and the folder before a file gets its bytes."""
    trace = snapd.file("trace")
    calls = "trace=mkdir,mkdirat,openat,fsync,fdatasync,ftruncate,pwrite64"
    try:
        subprocess.run(["strace", "-V"], capture_output=True, check=True)
    except (OSError, subprocess.CalledProcessError):
        raise Skipped("there is no strace") from None
    subprocess.run(["strace", "-f", "-o", trace, "-e", calls, snapd.path, "init", "D"], cwd=snapd.folder, check=True,
                   capture_output=True)
    opened, steps = {}, []
    for line in trace.read_text().splitlines():
        if found := re.search(r'mkdir(?:at)?\((?:AT_FDCWD, )?"(D)"', line):
            steps.append(("mkdir", found[1]))
        elif found := re.search(r'openat\(AT_FDCWD, "([^"]+)".*= (\d+)$', line):
            opened[found[2]] = found[1]
        elif found := re.search(r"(fsync|fdatasync|ftruncate)\((\d+)", line):
            steps.append((found[1].replace("fdata", "f"), opened.get(found[2])))
    file = f"D/{name_of(0)}"
    assert steps[:4] == [("mkdir", "D"), ("fsync", "."), ("fsync", "D"), ("ftruncate", file)], steps
    assert steps[4:] == [("fsync", file)] * 3, steps


def test_killed_two_hundred_times(snapd, random):
    """Killed at any moment, `init` can be run again, and what was made stays."""
    count = 8
    for round_ in range(200):
        name = f"D{round_}"
        run = subprocess.Popen([snapd.path, "init", name, "--count", str(count)], cwd=snapd.folder,
                               stdout=subprocess.PIPE, stderr=subprocess.PIPE)
        time.sleep(random.random() ** 2 * 0.03)
        run.send_signal(signal.SIGKILL)
        output, errors = run.communicate()
        assert errors == b"" and made(count).encode().startswith(output), (output, errors)
        whole = output.count(b"\n")
        again = snapd("init", name, "--count", count)
        assert (again.status, again.errors) == (0, ""), again
        for index, line in enumerate(again.output.decode().splitlines()):
            kept, new = f"kept {index} of {count} number 0", f"formatted {index} of {count}"
            assert line == kept or (line == new and index >= whole), (output, again)
        assert files_in(snapd.file(name)) == fresh_files(count)


# ---- serve --dir ----

def test_a_folder_is_served_and_served_again(snapd, _):
    folder(snapd, 3)
    with Server(snapd, "--dir", "D") as server:
        assert server.report == "".join(
            f"segment {index} number 0 length 0 spare closed\n" for index in range(3)
        ) + "segments 3\n"
        server.ask(update(1, 1, b"hi"), stored(1))
        assert server.scan() == [(0, b""), (1, b"hi"), (0, b"")]
    with Server(snapd, "--dir", "D", scanners=2, more=("--idle", 60)) as server:
        assert server.scan() == [(0, b""), (1, b"hi"), (0, b"")]
    snapd("init", "D", "--count", 3).gave(0, made(3, kept=enumerate([0, 1, 0])))


def test_files_of_any_names_are_served_by_what_they_say(snapd, _):
    place = folder(snapd, 4)
    for index in range(4):
        put(snapd, place / name_of(index), index, 4, f"v{index}").gave(0, "stored 1\n")
    for index, name in enumerate(("z.seg", ".seg", "a b\n.seg", "segment-00.seg.seg")):
        (place / name_of(index)).rename(place / name)
    (place / "notes").write_bytes(b"")
    (place / "z.seg.bak").write_bytes(b"")
    with Server(snapd, "--dir", "D") as server:
        assert server.scan() == [(1, f"v{index}".encode()) for index in range(4)]
    # Two that changed their names.
    (place / "z.seg").rename(place / "y.seg")
    (place / ".seg").rename(place / "z.seg")
    (place / "y.seg").rename(place / ".seg")
    with Server(snapd, "--dir", "./D/") as server:
        assert server.scan() == [(1, f"v{index}".encode()) for index in range(4)]


def test_a_missing_segment(snapd, _):
    place = folder(snapd, 4)
    for index in (3, 1):
        (place / name_of(index)).rename(snapd.file(f"S{index}"))
        serve(snapd).gave(3, errors=said(
            f"D: segment {index} of 4 is missing: bring its file back, or make a new and empty one with "
            f"snapd format D/{name_of(index)} --index {index} --count 4"
        ))
    # The first of both is named. What is said to do helps.
    snapd("format", f"D/{name_of(1)}", "--index", 1, "--count", 4).gave(0, "formatted 1 of 4\n")
    snapd.file("S3").rename(place / "back.seg")
    assert serve(snapd).status == 0


def test_a_segment_that_is_there_twice(snapd, _):
    place = folder(snapd, 2)
    (place / "copy.seg").write_bytes((place / name_of(1)).read_bytes())
    serve(snapd).gave(3, errors=said(
        f"D/{name_of(1)}: it is segment 1 of 2, as D/copy.seg is: move one of them out of D"
    ))
    (place / "copy.seg").unlink()
    os.link(place / name_of(0), place / "x.seg")
    serve(snapd).gave(3, errors=said(
        f"D/x.seg: it is segment 0 of 2, as D/{name_of(0)} is: move one of them out of D"
    ))


def test_a_segment_of_another_count(snapd, _):
    place = folder(snapd, 2)
    (place / "x.seg").write_bytes(layout.holding((3, b"x"), index=2, count=3))
    serve(snapd).gave(3, errors=said(
        f"D/x.seg: it is of 3 segments, and D/{name_of(0)} of 2: move the one that doesn't belong here out of D"
    ))


def test_files_that_are_no_segments(snapd, _):
    place = folder(snapd, 1)
    file, name = place / "x.seg", "D/x.seg"
    header = bytearray(layout.holding((0, b"")))
    header[11] = 1
    no_segment = (
        f"{name}: it is no segment file: bring a copy back if it was one, else move it out of D, "
        "or give it a name that doesn't end in .seg"
    )
    go_on = "go on with the init or format that was cut off, or move it out of D"
    empty = f"{name}: it was never formatted, or its header is gone: {go_on}"
    # Its slots may hold a value, which a format erases.
    cut = f"{name}: it was never formatted, or its header is gone: keep a copy first, then {go_on}"
    old = f"{layout.advice(name)}, and move it out of D"
    for data, line in (
        (b"hi", no_segment),
        (bytes(layout.LENGTH + 1), no_segment),
        (bytes(header), no_segment),
        (b"", empty),
        (bytes(layout.LENGTH), cut),
        (layout.OLD.holding((1, b"hi")), old),
    ):
        file.write_bytes(data)
        serve(snapd).gave(3, errors=said(line))
        assert file.read_bytes() == data
    file.unlink()
    file.mkdir()
    serve(snapd).gave(1, errors=said(f"{name}: Is a directory (os error 21)"))


def test_no_folder_to_serve(snapd, _):
    serve(snapd).gave(1, errors=remedies.failed("D", remedies.MISSING, remedies.no_folder("D")))
    snapd.file("D").write_bytes(b"")
    serve(snapd).gave(1, errors=said("D: Not a directory (os error 20)"))
    snapd.file("E").mkdir()
    serve(snapd, folder="E").gave(3, errors=said(
        "E: it has no segment file: make them with snapd init E --count N"
    ))
    (snapd.file("E") / "notes").write_bytes(b"hi")
    serve(snapd, folder="E").failed_with(3, "it has no segment file")


def test_a_damaged_file_of_a_folder_is_refused_as_any_other(snapd, _):
    place = folder(snapd, 2)
    data = bytearray((place / name_of(1)).read_bytes())
    data[layout.gate_at(0)] = 0
    (place / name_of(1)).write_bytes(data)
    run = serve(snapd)
    assert run.status == 3 and f"D/{name_of(1)}: it doesn't hold a segment's number" in run.errors, run


def test_a_folder_in_use(snapd, _):
    place = folder(snapd, 2)
    with Server(snapd, "--dir", "D"):
        serve(snapd).gave(1, errors=f"snapd: D/{name_of(0)}: it is in use by another snapd\n")
        snapd("put", place / name_of(1), "--index", 1, "--count", 2, stdin="x").failed_with(1, "it is in use")
    with locked(place / name_of(1), fcntl.LOCK_SH):
        serve(snapd).gave(1, errors=f"snapd: D/{name_of(1)}: it is in use by another snapd\n")
    assert files_in(place) == fresh_files(2)


def test_faults_of_a_folder_come_behind_those_of_the_words_and_the_address(snapd, _):
    snapd("serve", ":7070", "--dir", "D").failed_with(1, "an address is HOST:PORT")
    snapd("serve", "127.0.0.1:0", "F", "--dir", "D").failed_with(2)
    snapd("serve", "127.0.0.1:0").failed_with(2)


def test_nothing_is_changed_before_a_folder_is_served(snapd, _):
    """A folder that is refused keeps each byte, and when it was changed."""
    place = folder(snapd, 3)
    (place / name_of(1)).unlink()
    before = {it.name: (it.read_bytes(), it.stat().st_mtime_ns) for it in place.iterdir()}
    assert serve(snapd).status == 3
    assert {it.name: (it.read_bytes(), it.stat().st_mtime_ns) for it in place.iterdir()} == before
