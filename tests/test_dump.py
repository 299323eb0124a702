"""What is in a server or in files, carried elsewhere: `snapd dump` prints it as one document,
and `snapd load` makes a folder of it."""

import base64
import calendar
import concurrent.futures
import errno
import fcntl
import hashlib
import json
import os
import pathlib
import re
import resource
import shutil
import signal
import subprocess
import threading
import time

import remedies
import segment_file as layout
from load import Load, Scan
from preload import library
from serving import FRESH, Server, fresh, segments
from test_folder import files_in, name_of
from test_locks import locked
from test_memory import count_of
from test_serve_disks import TWO, Disk
from waiting import PATIENCE, moment, wait_until

TIME = "2026-11-27T09:54:52Z"
CHANGED = "it was changed, since its checksum is that of another text: take another copy, or dump again"
CUT = "it was cut off, or has more behind its end: take another copy, or dump again"
FOREIGN = "its checksum is right, but snapd didn't write it: a number, a value or its form is another"
NO_DUMP = "it is no dump: give what snapd dump printed"
OTHER_VERSION = "it is a dump of another version: load it with the snapd that made it, or a later one"
TOO_LONG = "it is longer than any dump: give what snapd dump printed"
LAST = 1 << 63
# What a segment may have at most, in text and not; and a text with each kind of escape.
LONGEST = [bytes([31]) * 4_080, b"\xff" * 4_080, b'"' * 4_080, "ü€😀".encode() * 453 + b"123"]
ODD = [
    b"", b"state", b"\x00\x01\x02", b"\xff\xfe", b'"\\/\x08\x0c\n\r\t\x1f\x7f', "ünï\u2028code 😀".encode(),
    b"\xed\xa0\x80", b"-",
]


# ---- the document, from docs/FORMATS.md ----

def quoted(text):
    short = {'"': '\\"', "\\": "\\\\", "\b": "\\b", "\f": "\\f", "\n": "\\n", "\r": "\\r", "\t": "\\t"}
    return '"' + "".join(short.get(it, f"\\u{ord(it):04x}" if ord(it) < 32 else it) for it in text) + '"'


def shown(value):
    try:
        return '"text":' + quoted(value.decode())
    except UnicodeDecodeError:
        return '"base64":"' + base64.b64encode(value).decode() + '"'


def sealed(lines):
    """The lines with the last one, which has their digest."""
    return lines + b'],"sha256":"' + hashlib.sha256(lines).hexdigest().encode() + b'"}\n'


def lines_of(entries, when=TIME, count=None):
    rows = ",\n".join(
        f'{{"segment":{index},"number":{number},{shown(value)}}}' for index, (number, value) in enumerate(entries)
    )
    count = len(entries) if count is None else count
    return f'{{"format":"snapd dump","version":1,"time":{quoted(when)},"count":{count},"segments":[\n{rows}\n'.encode()


def document(entries, when=TIME):
    return sealed(lines_of(entries, when))


def entries_in(text):
    """What a dump has, as any reader of JSON sees it."""
    found = json.loads(text)
    assert list(found) == ["format", "version", "time", "count", "segments", "sha256"]
    assert (found["format"], found["version"], found["count"]) == ("snapd dump", 1, len(found["segments"]))
    entries = []
    for index, it in enumerate(found["segments"]):
        assert it["segment"] == index
        value = it["text"].encode() if "text" in it else base64.b64decode(it["base64"], validate=True)
        entries.append((it["number"], value))
    assert text == document(entries, found["time"])
    return entries


def dumped(snapd, whose, *more):
    """The entries of a dump, after a check of its time."""
    before = time.time()
    run = snapd("dump", whose, *more)
    assert (run.status, run.errors) == (0, ""), run
    when = time.strptime(json.loads(run.output)["time"], "%Y-%m-%dT%H:%M:%SZ")
    assert int(before) <= calendar.timegm(when) <= time.time()
    return entries_in(run.output)


def loaded(entries, folder, count=None):
    """What `load` prints."""
    entries = [*entries, *FRESH * ((count or len(entries)) - len(entries))]
    lines = (f"loaded {index} of {len(entries)} number {number}\n" for index, (number, _) in enumerate(entries))
    return "".join(lines) + f"ready {folder}\n"


def files_of(entries, count=None):
    """All bytes of the files that a load makes."""
    entries = [*entries, *FRESH * ((count or len(entries)) - len(entries))]
    return {name_of(index): layout.holding(it, index=index, count=len(entries)) for index, it in enumerate(entries)}


def folder(snapd, entries, name="D"):
    """A folder with files that hold these, and another value before each."""
    place = snapd.file(name)
    place.mkdir()
    for index, (number, value) in enumerate(entries):
        before = [(number - 1, b"before")] if number > 0 else []
        data = layout.holding(*before, (number, value), index=index, count=len(entries))
        (place / name_of(index)).write_bytes(data)
    return place


def write(snapd, text, name="dump"):
    snapd.file(name).write_bytes(text)
    return name


def refused(run, file, why):
    run.gave(3, errors=f"snapd: {file}: {why}\n")


# ---- round trips ----

def test_round_trips_of_files(snapd, _):
    for entries in (ODD_ENTRIES, [(7, it) for it in LONGEST] * 4, [(LAST - 1, b"last")], [(0, b"")] * 16):
        place = folder(snapd, entries)
        before = files_in(place)
        assert dumped(snapd, "D") == entries
        assert files_in(place) == before
        text = snapd("dump", "./D/").output
        snapd("load", "E", write(snapd, text)).gave(0, loaded(entries, "E"))
        assert files_in(snapd.file("E")) == files_of(entries)
        assert dumped(snapd, "E") == entries
        snapd("load", "F", "-", stdin=text).gave(0, loaded(entries, "F"))
        assert files_in(snapd.file("F")) == files_of(entries)
        assert sorted(it.name for it in snapd.folder.iterdir()) == ["D", "E", "F", "dump"]
        for name in "DEF":
            shutil.rmtree(snapd.file(name))


ODD_ENTRIES = [(number, value) for number, value in enumerate(ODD)]


def test_each_number_of_segments_is_loaded(snapd, _):
    for count in range(1, 17):
        entries = [(1, b"x")] * count
        snapd("load", f"E{count}", "-", stdin=document(entries)).gave(0, loaded(entries, f"E{count}"))
        assert files_in(snapd.file(f"E{count}")) == files_of(entries)


def test_the_largest_dump_is_loaded(snapd, _):
    """Sixteen values of 4,080 bytes that take six each: less than half of what is read."""
    entries = [(LAST - 1, LONGEST[0])] * 16
    text = document(entries)
    assert len(text) < (1 << 20) // 2
    snapd("load", "E", write(snapd, text)).gave(0, loaded(entries, "E"))
    assert dumped(snapd, "E") == entries


def test_the_checksum_is_that_of_a_shell(snapd, _):
    folder(snapd, ODD_ENTRIES)
    write(snapd, snapd("dump", "D").output)
    shell = subprocess.run(
        "head -n -1 dump | sha256sum | cut -d ' ' -f 1", shell=True, cwd=snapd.folder, capture_output=True
    )
    assert json.loads(snapd.file("dump").read_bytes())["sha256"].encode() == shell.stdout.strip()


def test_the_example_of_the_formats(snapd, _):
    text = (pathlib.Path(__file__).resolve().parent.parent / "docs" / "FORMATS.md").read_text()
    example = document([(17, b"state"), (3, b"\x00\x01\xff")])
    assert f"```\n{example.decode()}```\n" in text
    snapd("load", "E", write(snapd, example)).gave(0, loaded([(17, b""), (3, b"")], "E"))


def test_a_job_grows(snapd, _):
    entries = [(3, b"a"), (9, b"\xff")]
    write(snapd, document(entries))
    for count in (2, 3, 16):
        snapd("load", f"E{count}", "dump", "--count", count).gave(0, loaded(entries, f"E{count}", count))
        assert files_in(snapd.file(f"E{count}")) == files_of(entries, count)
        with Server(snapd, "--dir", f"E{count}") as server:
            assert server.scan() == [*entries, *FRESH * (count - 2)]
    refused(snapd("load", "E", "dump", "--count", 1), "dump", "it has 2 segments, and --count is 1: give 2 or more")
    for count in (0, 17, 256, "x"):
        snapd("load", "E", "dump", "--count", count).failed_with(2)
    assert not snapd.file("E").exists() and not snapd.file("E.loading").exists()


def test_a_loaded_folder_goes_on(snapd, _):
    """Its numbers are kept, so a job continues where it was."""
    write(snapd, document([(5, b"five"), (0, b"")]))
    snapd("load", "E", "dump").gave(0, loaded([(5, b""), (0, b"")], "E"))
    with Server(snapd, "--dir", "E") as server:
        snapd("call", server.address, "put", 0, "--value", "six", "--after", 5).gave(0, "stored 6\n")
        assert dumped(snapd, server.address) == [(6, b"six"), (0, b"")]
    snapd("put", "E/segment-00.seg", "--count", 2, stdin="seven").gave(0, "stored 7\n")
    assert dumped(snapd, "E") == [(7, b"seven"), (0, b"")]


# ---- dumps of servers ----

def test_dumps_beside_sixteen_writers(snapd, rng):
    """Each dump is one moment, that holds all that was acknowledged before it began and nothing that was begun after it
    ended; and what is loaded elsewhere is served as it was dumped."""
    load, dumps, over = Load(16, rng), [], threading.Event()

    def dump(address):
        shown = 0
        try:
            while len(dumps) < 30:
                # So that no segment is fresh in any dump, and each has more than the last, however slow the machine is.
                wait_until(lambda: all(load.numbers) and sum(load.numbers) > shown, "an update")  # noqa: B023
                began = time.monotonic()
                run = snapd("dump", address)
                dumps.append((began, time.monotonic(), run))
                shown = sum(number for number, _ in entries_in(run.output))
        finally:
            over.set()

    with Server(snapd, *fresh(snapd, 16), scanners=2) as server:
        thread = threading.Thread(target=dump, args=[server.address])
        thread.start()
        load.run(server, 2, over.is_set)
        thread.join()
    for began, ended, run in dumps:
        assert (run.status, run.errors) == (0, ""), run
        load.scans.append(Scan(began, ended, entries_in(run.output)))
    load.judge()
    assert len({tuple(number for number, _ in entries_in(run.output)) for _, _, run in dumps}) == 30
    for index in (5, 29):
        entries = entries_in(dumps[index][2].output)
        assert all(number > 0 for number, _ in entries)
        snapd("load", f"E{index}", "-", stdin=dumps[index][2].output).gave(0, loaded(entries, f"E{index}"))
        with Server(snapd, "--dir", f"E{index}") as server:
            assert server.scan() == entries


def test_a_fenced_segment_is_dumped_as_it_was(snapd, _):
    disk = Disk(snapd)
    with Server(snapd, *segments(snapd, TWO, FRESH), env=disk.env) as server:
        disk.says(f"S1 sync fail {errno.EIO}")
        snapd("call", server.address, "update", 1, 1, "00").gave(3, errors="snapd: refused 13 DeviceFailed 0\n")
        disk.says()
        entries = dumped(snapd, server.address)
        assert entries == server.scan() and entries[1] == (0, b"")


def test_a_server_that_gives_no_answer(snapd, _):
    none = "snapd: 127.0.0.1:1: no connection to the server could be made\n"
    none += (
        "snapd: 127.0.0.1:1: Connection refused (os error 111): nobody listens there: "
        "start snapd serve there, or wait for it with --wait\n"
    )
    snapd("dump", "127.0.0.1:1").gave(1, errors=none)
    snapd("dump", "127.0.0.1:1", "--tries", 3, "--timeout", 5).gave(1, errors=none)
    with Server(snapd, *fresh(snapd, 2)) as server:
        server.process.send_signal(signal.SIGSTOP)
        over = f"{server.address}: there was no answer within 1 s (--timeout)"
        snapd("dump", server.address, "--timeout", 1).failed_with(1, over)
        server.process.send_signal(signal.SIGCONT)
        assert dumped(snapd, server.address, "--tries", 2, "--timeout", 60) == FRESH * 2
    snapd("dump", ":7070").failed_with(1, ":7070: an address is HOST:PORT or unix:PATH, and the host is missing")
    snapd("dump", "nobody.invalid:7070").failed_with(1, "nobody.invalid:7070: ")
    for words in (["--tries", 0], ["--tries", 11], ["--timeout", 0], ["--timeout", 86_401], ["--timeout", "x"]):
        snapd("dump", "127.0.0.1:1", *words).failed_with(2)


# ---- dumps of files ----

def test_an_address_and_a_folder_are_told_apart(snapd, _):
    for name in ("a:b", "7070", "a:7b", "unix", "x.y", "a:", "a:1:b", "ü"):
        folder(snapd, [(1, b"x")], name)
        assert dumped(snapd, name) == [(1, b"x")], name
    for name in ("a:7", ":1", "unix:a", "[::1]:1", "unix:", "a:b:7"):
        assert snapd("dump", name).status == 1, name
        if name != "unix:a":
            folder(snapd, [(1, b"x")], name)
        if name != "unix:a":
            assert dumped(snapd, f"./{name}") == [(1, b"x")], name
    assert dumped(snapd, snapd.file("a:7")) == [(1, b"x")]


def test_a_folder_that_a_server_has(snapd, _):
    place = folder(snapd, [(1, b"x"), (2, b"y")])
    with Server(snapd, "--dir", "D") as server:
        in_use = f"D/{name_of(0)}: it is in use by another snapd: where that is a server, ask it: snapd dump ADDR"
        snapd("dump", "D").gave(1, errors=f"snapd: {in_use}\n")
        assert dumped(snapd, server.address) == [(1, b"x"), (2, b"y")]
    with locked(place / name_of(1), fcntl.LOCK_EX):
        snapd("dump", "D").gave(1, errors=f"snapd: {in_use.replace(name_of(0), name_of(1))}\n")
    # Readers exclude no other reader.
    with locked(place / name_of(1), fcntl.LOCK_SH):
        assert dumped(snapd, "D") == [(1, b"x"), (2, b"y")]


def test_files_that_are_only_read(snapd, _):
    place = folder(snapd, [(1, b"x"), (2, b"y")])
    for file in place.iterdir():
        file.chmod(0o444)
    place.chmod(0o555)
    try:
        assert dumped(snapd, "D") == [(1, b"x"), (2, b"y")]
    finally:
        place.chmod(0o755)


def test_folders_that_are_refused(snapd, _):
    snapd("dump", "D").gave(1, errors=remedies.failed("D", remedies.MISSING, remedies.no_folder("D")))
    snapd.file("D").mkdir()
    empty = "D: it has no segment file: make them with snapd init D --count N"
    snapd("dump", "D").gave(3, errors=f"snapd: {empty}\n")
    shutil.rmtree(snapd.file("D"))
    place = folder(snapd, [(1, b"x"), (2, b"y")])
    snapd("dump", f"D/{name_of(0)}").failed_with(1, "Not a directory")
    whole = (place / name_of(1)).read_bytes()
    (place / name_of(1)).unlink()
    snapd("dump", "D").failed_with(3, "segment 1 of 2 is missing")
    # A file that is damaged is refused as a get of it is.
    torn = bytearray(whole)
    torn[layout.body_at(2)] ^= 1
    torn[layout.body_at(1)] ^= 1
    for at in range(3):
        torn[layout.gate_at(at) + 1] = 1
    (place / name_of(1)).write_bytes(torn)
    wanted = snapd("get", f"D/{name_of(1)}", "--index", 1, "--count", 2)
    assert wanted.status == 3 and "10 Damaged" in wanted.errors, wanted
    assert snapd("dump", "D") == wanted
    disk = Disk(snapd)
    (place / name_of(1)).write_bytes(whole)
    disk.says(f"{name_of(1)} read fail {errno.EIO}")
    snapd("dump", "D", env=disk.env).failed_with(3, name_of(1), "Input/output error")


# ---- documents that are refused ----

SMALL = document([(7, b"hi"), (1, b"\x00\xff")])


def batch(snapd, texts):
    """What a load of each of these says; nothing is made of any."""
    def one(item):
        number, text = item
        return snapd("load", f"E{number}", "-", stdin=text)

    with concurrent.futures.ThreadPoolExecutor(8) as workers:
        runs = list(workers.map(one, enumerate(texts)))
    assert not list(snapd.folder.glob("E*")), "something was made"
    return runs


def test_each_byte_of_a_small_dump(snapd, rng):
    """Each one in turn is another, by one bit and by any: it is refused, and nothing is made."""
    snapd("load", "D", "-", stdin=SMALL).gave(0, loaded([(7, b""), (1, b"")], "D"))
    texts = []
    for at in range(len(SMALL)):
        for bits in (1 << rng.randrange(8), rng.randrange(1, 256)):
            texts.append(SMALL[:at] + bytes([SMALL[at] ^ bits]) + SMALL[at + 1 :])
    whys = set()
    for run in batch(snapd, texts):
        assert (run.status, run.output) == (3, b""), run
        whys.add(run.errors.removeprefix("snapd: standard input: ").strip())
    assert whys == {CHANGED, CUT, NO_DUMP, OTHER_VERSION}, whys


def test_each_beginning_of_a_small_dump(snapd, _):
    for run in batch(snapd, [SMALL[:length] for length in range(len(SMALL))]):
        refused(run, "standard input", CUT)
    for run in batch(snapd, [SMALL + more for more in (b"\n", b" ", b"x")]):
        refused(run, "standard input", CUT)
    for run in batch(snapd, [SMALL + SMALL]):
        refused(run, "standard input", CHANGED)


def test_documents_of_others(snapd, _):
    """Their checksum is right, and they are no dump all the same."""
    two = [(7, b"hi"), (1, b"\x00\xff")]
    lines = lines_of(two)
    foreign = [
        lines_of([]), lines_of([(0, b"")] * 17), lines_of(two, count=1), lines_of(two, count=3),
        lines_of(two, count=16),
        lines_of([(LAST, b"")]), lines_of([((1 << 64) - 1, b"")]), lines_of([(1 << 64, b"")]), lines_of([(-1, b"")]),
        lines_of([(1, b"x" * 4_081)]), lines_of([(1, b"\xff" * 4_081)]),
        lines.replace(b'"segment":1', b'"segment":2'), lines.replace(b'"segment":0', b'"segment":1'),
        lines.replace(b'"number":7', b'"number":07'), lines.replace(b'"number":7', b'"number":7.0'),
        lines.replace(b'"number":7', b'"number":+7'), lines.replace(b'"number":7', b'"number":"7"'),
        lines.replace(b'"text":"hi"', b'"base64":"aGk="'), lines.replace(b'"base64":"AP8="', b'"base64":"AP8"'),
        lines.replace(b'"base64":"AP8="', b'"base64":"AP9="'), lines.replace(b'"base64":"AP8="', b'"text":"\xff"'),
        lines.replace(b'"text":"hi"', b'"text":"\\u0068i"'), lines.replace(b'"text":"hi"', b'"text":"hi","text":"hi"'),
        lines.replace(b'"text":"hi"', b'"TEXT":"hi"'), lines.replace(b',"text"', b', "text"'),
        lines.replace(b"\n", b"\r\n"), lines.replace(b"\n", b""), lines.replace(b"},\n{", b"}\n,{"),
        lines.replace(b"},", b"}"), lines[:-1], lines + b"\n",
        lines.replace(b'"count":2', b'"count":2,"more":[[[[]]]]'), lines.replace(TIME.encode(), b"\xff"),
        lines.replace(b'"time":"' + TIME.encode() + b'",', b""),
        lines.replace(b'"version":1', b'"version":1,"version":1'),
        lines[: lines.index(b"\n")], lines[: lines.index(b"[") + 1] + b"[" * 100_000,
    ]
    for text, run in zip(foreign, batch(snapd, map(sealed, foreign))):
        assert run.errors == f"snapd: standard input: {FOREIGN}\n" and run.status == 3, (text[:300], run)
    for run in batch(
        snapd, [sealed(lines.replace(b'"version":1', b'"version":' + it)) for it in (b"2", b"10", b"0", b"-1")]
    ):
        refused(run, "standard input", OTHER_VERSION)
    # Also where it has no end.
    for run in batch(snapd, [b'{"format":"snapd dump","version":2,']):
        refused(run, "standard input", OTHER_VERSION)
    others = [
        b"x", b"{}", b"\x00" * 100, b" " + SMALL, SMALL.lower().replace(b"snapd dump", b"snapd scan"),
        b'{"segments":[]}\n',
    ]
    for run in batch(snapd, others):
        refused(run, "standard input", NO_DUMP)
    # Any text may be its time.
    for number, when in enumerate(("", "never", "ü\"\n")):
        snapd("load", f"T{number}", "-", stdin=document(two, when)).gave(0, loaded(two, f"T{number}"))


def test_a_hostile_document(snapd, _):
    """No more is read than a dump may have, and no more kept."""
    def limit():
        resource.setrlimit(resource.RLIMIT_AS, (256 << 20, 256 << 20))

    row = b'{"segment":0,"number":0,"text":""},\n'
    endless = lines_of([(0, b"")], count=16)[:-1] + row * 20_000
    for text, why in (
        (endless[: 1 << 20], CUT), (sealed(endless[: (1 << 20) - 78]), FOREIGN),
        (b'{"format":"snapd dump",' * 60_000, TOO_LONG),
    ):
        refused(snapd("load", "E", write(snapd, text), preexec_fn=limit), "dump", why)
    with open("/dev/zero", "rb") as zeros:
        refused(snapd("load", "E", "-", stdin=zeros, preexec_fn=limit), "standard input", TOO_LONG)
    refused(snapd("load", "E", "/dev/zero", preexec_fn=limit), "/dev/zero", TOO_LONG)
    assert not snapd.file("E").exists()


def test_dumps_that_are_not_there(snapd, _):
    snapd("load", "E", "dump").gave(1, errors="snapd: dump: No such file or directory (os error 2)\n")
    snapd.file("dump").mkdir()
    snapd("load", "E", "dump").gave(1, errors="snapd: dump: Is a directory (os error 21)\n")
    write(snapd, SMALL, "closed")
    snapd.file("closed").chmod(0)
    if os.geteuid() != 0:
        remedy = remedies.owned("closed", snapd.file("closed"), os.geteuid())
        snapd("load", "E", "closed").gave(1, errors=remedies.failed("closed", remedies.DENIED, remedy))
    snapd("load", "E").failed_with(2)
    snapd("load", "E", "-", "x").failed_with(2)
    refused(snapd("load", "E", "-"), "standard input", CUT)
    assert not snapd.file("E").exists() and not snapd.file("E.loading").exists()


# ---- where it is loaded ----

def test_folders_that_are_there(snapd, _):
    write(snapd, SMALL)
    snapd.file("empty").mkdir()
    snapd("load", "empty", "dump").gave(0, loaded([(7, b""), (1, b"")], "empty"))
    taken = "it is not empty: give the path of a folder that isn't there yet"
    before = files_in(snapd.file("empty"))
    refused(snapd("load", "empty", "dump"), "empty", taken)
    assert files_in(snapd.file("empty")) == before
    snapd.file("other").mkdir()
    (snapd.file("other") / "x").write_bytes(b"")
    refused(snapd("load", "other/", "dump"), "other", taken)
    snapd("load", "dump", "dump").gave(1, errors="snapd: dump: Not a directory (os error 20)\n")
    snapd("load", "dump/E", "dump").gave(1, errors="snapd: dump/E: Not a directory (os error 20)\n")
    snapd("load", "none/E", "dump").gave(
        1, errors=remedies.failed("none/E.loading", remedies.MISSING, remedies.nowhere("none"))
    )
    for name in (".", "..", "/", "", "other/..", "./", "./.", "/."):
        snapd("load", name, "dump").failed_with(3, "it has no name of its own")
    assert sorted(it.name for it in snapd.folder.iterdir()) == ["dump", "empty", "other"]
    for name in ("a b", "c/", "./d", "ü'\"$", ".hidden", "e//", snapd.file("g"), "a:1"):
        snapd("load", name, "dump").gave(0, loaded([(7, b""), (1, b"")], name))
        assert files_in(snapd.file(name)) == files_of([(7, b"hi"), (1, b"\x00\xff")])


def test_what_a_load_left_is_replaced(snapd, _):
    write(snapd, SMALL)
    left = snapd.file("E.loading")
    left.mkdir()
    (left / name_of(0)).write_bytes(layout.holding((1, b"x"), index=0, count=3))
    (left / name_of(1)).write_bytes(b"")
    (left / name_of(15)).write_bytes(bytes(100))
    snapd("load", "E", "dump").gave(0, loaded([(7, b""), (1, b"")], "E"))
    assert files_in(snapd.file("E")) == files_of([(7, b"hi"), (1, b"\x00\xff")])
    assert not left.exists()


def test_what_no_load_left_is_spared(snapd, _):
    write(snapd, SMALL)
    left = snapd.file("E.loading")
    for name in ("x", "segment-16.seg", "segment-1.seg", "segment-00.seg.old", "segment-000.seg", ".x"):
        left.mkdir()
        (left / name_of(0)).write_bytes(b"x")
        (left / name).write_bytes(b"y")
        snapd("load", "E", "dump").gave(
            3, errors=f"snapd: E.loading/{name}: it is not what a load leaves: move it out of there\n"
        )
        assert files_in(left) == {name_of(0): b"x", name: b"y"}
        shutil.rmtree(left)
    left.mkdir()
    (left / os.fsdecode(b"\xff")).write_bytes(b"")
    snapd("load", "E", "dump").gave(
        3, errors="snapd: E.loading: it has a file whose name is no text: move it out of there\n"
    )
    shutil.rmtree(left)
    (left / name_of(0)).mkdir(parents=True)
    snapd("load", "E", "dump").failed_with(1, f"E.loading/{name_of(0)}: ")
    shutil.rmtree(left)
    left.write_bytes(b"")
    snapd("load", "E", "dump").failed_with(1, "E.loading: Not a directory")
    assert not snapd.file("E").exists()


def test_two_loads_at_once(snapd, _):
    """Of any number one makes the folder, and the others are refused or find it there."""
    write(snapd, SMALL)
    left = snapd.file("E.loading")
    left.mkdir()
    descriptor = os.open(left, os.O_RDONLY)
    fcntl.flock(descriptor, fcntl.LOCK_EX)
    refused(
        snapd("load", "E", "dump"), "E.loading", "another load is at work there: wait for it, or give another folder"
    )
    os.close(descriptor)
    for round in range(20):
        runs = [subprocess.Popen([snapd.path, "load", f"L{round}", "dump"], cwd=snapd.folder, stdout=subprocess.PIPE,
                                 stderr=subprocess.PIPE) for _ in range(4)]
        told = [(*run.communicate(timeout=PATIENCE), run.returncode) for run in runs]
        assert sorted(status for _, _, status in told).count(0) == 1, told
        for output, errors, status in told:
            if status == 0:
                assert output.decode() == loaded([(7, b""), (1, b"")], f"L{round}")
            else:
                assert status in (1, 3) and re.match(rb"snapd: L\d+(\.loading)?[:/]", errors), told
        assert files_in(snapd.file(f"L{round}")) == files_of([(7, b"hi"), (1, b"\x00\xff")])
        assert not snapd.file(f"L{round}.loading").exists()


def test_killed_two_hundred_times(snapd, rng):
    """A load is killed at a random moment, again and again. Then the folder isn't there, or is there whole;
    and a load makes it."""
    entries = [(number + 1, b"%d" % number * 500) for number in range(4)]
    write(snapd, document(entries))
    place, left, whole = snapd.file("E"), snapd.file("E.loading"), files_of(entries)
    began = time.monotonic()
    for _ in range(5):
        snapd("load", "E", "dump").gave(0, loaded(entries, "E"))
        shutil.rmtree(place)
    longest = (time.monotonic() - began) / 5
    outcomes = {"none": 0, "part": 0, "whole": 0}
    for number in range(200):
        run = subprocess.Popen([snapd.path, "load", "E", "dump"], cwd=snapd.folder, stdout=subprocess.DEVNULL)
        moment(rng, 1.1 * longest)
        run.kill()
        run.wait()
        if place.exists():
            assert files_in(place) == whole and not left.exists()
            outcomes["whole"] += 1
            # (so that loads beside others, which take longer or shorter, are killed at each part)
            longest *= 0.95
        else:
            longest *= 1.05
            outcomes["part" if left.exists() else "none"] += 1
            for file in left.iterdir() if left.exists() else ():
                data = file.read_bytes()
                assert len(data) in (0, layout.LENGTH) and (
                    data == whole[file.name] or data == b"" or layout.NOW.header_of(data) == "unformatted"), file
            if number < 60 and left.exists() and len(files_in(left)) < 4:
                # What is there is never served as if it were all.
                assert snapd("serve", "127.0.0.1:0", "--dir", "E.loading", "--connections", 0).status == 3
            # Every third time the rest is left to the next load that is killed.
            if number % 3:
                snapd("load", "E", "dump").gave(0, loaded(entries, "E"))
        if place.exists():
            assert files_in(place) == whole and not left.exists()
            shutil.rmtree(place)
    assert min(outcomes["part"], outcomes["whole"]) > 5, outcomes


def test_every_write_of_a_load_fails(snapd, _):
    """What can't be made isn't there, and a load makes it later."""
    entries = [(7, b"hi"), (1, b"\x00\xff")]
    write(snapd, SMALL)
    disk = Disk(snapd)
    for name in (name_of(0), name_of(1)):
        for call in ("write", "sync", "read"):
            disk.says(f"{name} {call} fail {errno.ENOSPC}")
            run = snapd("load", "E", "dump", env=disk.env)
            assert run.status == 3 and f"E.loading/{name}: {call}: " in run.errors, run
            assert not snapd.file("E").exists()
    disk.says()
    snapd("load", "E", "dump").gave(0, loaded(entries, "E"))


def test_output_that_fails(snapd, _):
    folder(snapd, [(1, b"x")])
    write(snapd, SMALL)
    with open("/dev/full", "wb") as full:
        run = snapd("dump", "D", stdout=full)
        assert run.status == 1 and run.errors == "snapd: standard output: No space left on device (os error 28)\n", run
        run = snapd("load", "E", "dump", stdout=full)
        assert run.status == 1 and run.errors == "snapd: standard output: No space left on device (os error 28)\n", run
    assert not snapd.file("E").exists()
    for closed in ("<&-", ">&-", "2>&-"):
        for words in ("dump D", "load F dump"):
            shell = subprocess.run(
                f"'{snapd.path}' {words} {closed}", shell=True, cwd=snapd.folder, capture_output=True
            )
            assert shell.returncode == 1, (closed, words, shell)
    assert not snapd.file("F").exists()


def test_each_allocation_is_refused(snapd, _):
    folder(snapd, [(1, b"x"), (2, b"\xff")])
    text = snapd("dump", "D").output
    write(snapd, text)
    for words in (["dump", "D"], ["load", "E", "dump"]):
        allocations = count_of(snapd, *words)
        shutil.rmtree(snapd.file("E"), ignore_errors=True)
        refusals = 0
        for number in range(1, allocations + 1):
            run = snapd(*words, env={"LD_PRELOAD": library("allocations"), "ALLOCATIONS_REFUSE": str(number)})
            if run.status == 0:
                assert words[0] == "load" or entries_in(run.output) == [(1, b"x"), (2, b"\xff")]
            else:
                assert run.status == 3 and "snapd: refused 8 NoMemory\n" in run.errors, run
                assert words[0] == "load" or run.output == b"", run
                refusals += 1
            place = snapd.file("E")
            assert place.exists() == (words[0] == "load" and run.status == 0), run
            if place.exists():
                assert files_in(place) == files_of([(1, b"x"), (2, b"\xff")])
                shutil.rmtree(place)
        assert refusals > 5, (words, allocations, refusals)


def test_a_mount_point_is_told(snapd, _):
    """A name that can't be given to another folder: the files are made, and it is said where."""
    write(snapd, SMALL)
    os.symlink("nowhere", snapd.file("E"))
    run = snapd("load", "E", "dump")
    assert run.status == 1 and run.errors.endswith("all files are made, in E.loading\n"), run
    assert dumped(snapd, "E.loading") == [(7, b"hi"), (1, b"\x00\xff")]
