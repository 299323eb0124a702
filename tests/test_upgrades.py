"""What every later version keeps, by docs/FORMATS.md, "Upgrades": each sentence is tried on what earlier versions left
in tests/data/. That was made once, by the version in its name or, of the old format, by segment_file.py, and is never
made anew.

- `format-1.seg` holds numbers 4 and 5, `step 4` and `step 5`
- `format-2-0.seg` and `format-2-1.seg` are of one server: after the values `step 1` to `step 4`, and after `00 01 FF`
- `VERSION.dump` is of these two
- `VERSION.frames` has requests to a server of two new segments, with its replies, as hexadecimal digits: a pair a line
"""

import pathlib
import re

from serving import MALFORMED, SCAN, Server, frame, fresh, received, snapshot, stored, update

DATA = pathlib.Path(__file__).resolve().parent / "data"
FILES = [DATA / f"format-2-{index}.seg" for index in range(2)]
BINARY = b"\0\1\xff"
HELD = [(4, b"step 4"), (1, BINARY)]
# The first byte of each request that there is.
REQUESTS = {1, 2, 3, 4}


def data(kind):
    """The files of this kind, of each version."""
    found = sorted(DATA.glob(f"*.{kind}"))
    assert found, kind
    return found


def laid(snapd, folder="board"):
    """A folder as the version of the second format's files left it."""
    snapd.file(folder).mkdir()
    for index, file in enumerate(FILES):
        (snapd.file(folder) / f"segment-0{index}.seg").write_bytes(file.read_bytes())


def test_files_of_the_second_format_are_read(snapd, _):
    laid(snapd)
    for index, (number, value) in enumerate(HELD):
        words = (f"board/segment-0{index}.seg", "--index", index, "--count", 2)
        snapd("get", *words).gave(0, value)
        assert snapd("check", words[0]).output.endswith(b"answer number %d\n" % number)
    with Server(snapd, "--dir", "board") as server:
        assert server.scan() == HELD
        server.ask(update(0, 5, b"step 5"), stored(5))
    with Server(snapd, "--dir", "board") as server:
        assert server.scan() == [(5, b"step 5"), HELD[1]]


def test_files_of_the_first_format_are_read(snapd, _):
    before = (DATA / "format-1.seg").read_bytes()
    snapd.file("old.seg").write_bytes(before)
    snapd("migrate", "old.seg", "new.seg").gave(0, "migrated 0 of 1 number 5\n")
    snapd("get", "new.seg").gave(0, b"step 5")
    assert snapd.file("old.seg").read_bytes() == before


def test_a_dump_of_each_version_loads(snapd, _):
    for dump in data("dump"):
        loaded = "".join(f"loaded {index} of 2 number {number}\n" for index, (number, _) in enumerate(HELD))
        snapd("load", dump.name, dump).gave(0, f"{loaded}ready {dump.name}\n")
        with Server(snapd, "--dir", dump.name) as server:
            assert server.scan() == HELD


def test_an_unknown_request_is_refused_and_its_connection_goes_on(snapd, _):
    """Each first byte that no request has, alone, with a number, and as long as a payload may be."""
    with Server(snapd, *fresh(snapd, 2)) as server, server.connect() as stream:
        for first in sorted({*range(256)} - REQUESTS):
            for rest in (b"", bytes(9), *([bytes(65_999)] if first in (0, 5, 128, 255) else [])):
                stream.sendall(frame(bytes([first]) + rest))
                assert received(stream, len(MALFORMED)) == MALFORMED, first
        for request, wanted in ((update(1, 1, b"hi"), stored(1)), (SCAN, snapshot((0, b""), (1, b"hi")))):
            stream.sendall(request)
            assert received(stream, len(wanted)) == wanted


def test_replies_have_the_form_that_they_had(snapd, _):
    for frames in data("frames"):
        with Server(snapd, *fresh(snapd, 2)) as server, server.connect() as stream:
            pairs = [map(bytes.fromhex, line.split()) for line in frames.read_text().splitlines()]
            replies = set()
            for request, reply in pairs:
                stream.sendall(request)
                assert received(stream, len(reply)) == reply, (frames.name, request.hex())
                replies.add(reply[4])
            assert replies >= {0x81, 0x82, 0x83, 0x84, 0xE0}


def test_an_older_server_reads_what_this_one_writes(snapd, _):
    """By the same commands this one leaves the same bytes, file for file; and in a dump all but its time and digest."""
    snapd("init", "board", "--count", 2)
    for number in range(1, 5):
        run = snapd("put", "board/segment-00.seg", "--index", 0, "--count", 2, stdin=f"step {number}")
        run.gave(0, f"stored {number}\n")
    with Server(snapd, "--dir", "board") as server:
        server.ask(update(1, 1, BINARY), stored(1))
    for index, file in enumerate(FILES):
        assert snapd.file(f"board/segment-0{index}.seg").read_bytes() == file.read_bytes(), index
    snapd("load", "copy", data("dump")[-1])
    for folder in ("board", "copy"):
        dump = snapd("dump", folder).output.decode()
        same = lambda text: re.sub(r'"time":"[^"]*"|"sha256":"[^"]*"', "", text)  # noqa: E731
        assert same(dump) == same(data("dump")[-1].read_text()), folder
