"""`snapd serve` and `snapd call` from both ends: what they print, their statuses, and what they leave."""

import contextlib
import os
import pathlib
import re
import signal
import socket
import subprocess
import threading

import remedies
import segment_file as layout
from serving import FRESH, OVER_THE_LIMIT, SCAN, STATUS, TOO_LARGE, Server, frame, free_port, fresh, received, refused
from serving import reset, segments, snapshot, standings, stored, to_its_end, update
from waiting import PATIENCE, comes_to, is_read, wait_until

REPORT = "segment 0 number 1 length 2 spare open\nsegment 1 number 0 length 0 spare closed\nsegments 2\n"
HELD = [(0, b""), (1, b"hi")]
FORMATS = (pathlib.Path(__file__).resolve().parent.parent / "docs" / "FORMATS.md").read_text()
# The line after that of a file's refusal, by the refusal: the rows of `serve` in docs/FORMATS.md, "Second lines".
REMEDIES = dict(re.findall(r"^\| (1\d(?:, [^|]+)?) \| (?:`serve`|both) \| `([^`]+)` \|$",
                           FORMATS.split("\n### Second lines\n")[1].split("\n### ")[0], re.M))


def two(snapd):
    """Two files: `hi` as number 1, and a fresh one."""
    return segments(snapd, HELD, FRESH)


# ---- the report, the address, the end ----

def test_report_and_address(snapd, _):
    files = two(snapd)
    with Server(snapd, *files) as server:
        assert server.report == REPORT
        assert re.fullmatch(r"127\.0\.0\.1:[1-9]\d*", server.address), server.address
        assert server.scan() == [(1, b"hi"), (0, b"")]
    port = free_port()
    with Server(snapd, *files, address=f"127.0.0.1:{port}") as server:
        assert server.address == f"127.0.0.1:{port}" and server.scan()[0] == (1, b"hi")


def test_report_of_each_kind_of_file(snapd, _):
    longest = b"v" * layout.MAX_VALUE
    held = [FRESH, [(7, b"x")], [(7, b"x"), (8, longest)], [(2**63 - 1, b"end")]]
    with Server(snapd, *segments(snapd, *held)) as server:
        assert server.report == (
            "segment 0 number 0 length 0 spare closed\nsegment 1 number 7 length 1 spare closed\n"
            f"segment 2 number 8 length 4080 spare open\nsegment 3 number {2**63 - 1} length 3 spare closed\n"
            "segments 4\n"
        )
        server.ask(SCAN, snapshot((0, b""), (7, b"x"), (8, longest), (2**63 - 1, b"end")))
        server.ask(update(3, 2**63, b"x"), refused(9, 2**63 - 1))


def test_no_connection_is_served(snapd, _):
    files = two(snapd)
    run = snapd("serve", "127.0.0.1:0", *files, "--connections", 0, "--log", "error")
    found = re.fullmatch(REPORT + r"listening 127\.0\.0\.1:\d+\nserved 0\n", run.output.decode())
    assert found and (run.status, run.errors) == (0, ""), run


def test_as_many_connections_as_were_asked_for(snapd, _):
    with Server(snapd, *two(snapd), connections=3, more=("--log", "debug")) as server:
        for number in (2, 3):
            server.ask(update(0, number, b"x"), stored(number))
        server.ask(STATUS, standings((3, False), (0, False)))
        run = server.end()
        assert (run.status, run.output) == (0, b"served 3\n"), run
        assert len(server.logged("DEBUG", "connection")) == 3, run
    with Server(snapd, "S0", "S1") as server:
        assert server.scan() == [(3, b"x"), (0, b"")]


def test_sixteen_files_for_each_number_of_scanners(snapd, _):
    """And each other number of files: whatever the numbers are, each worker serves all of them."""
    for count, scanners in [(16, it) for it in range(1, 17)] + [(it, it) for it in range(1, 16)]:
        with Server(snapd, *fresh(snapd, count), scanners=scanners) as server, contextlib.ExitStack() as peers:
            assert server.report.endswith(f"segments {count}\n"), (count, scanners)
            # Each worker gets one, and then they are dealt in turn.
            streams = [peers.enter_context(server.connect()) for _ in range(count)]
            for segment, stream in enumerate(streams):
                stream.sendall(update(segment, 1, b"v%d" % segment))
            assert [received(stream, len(stored(1))) for stream in streams] == [stored(1)] * count, (count, scanners)
            assert server.scan() == [(1, b"v%d" % it) for it in range(count)], (count, scanners)


def test_connections_get_workers_of_their_own(snapd, _):
    """While a worker has none, it gets the next one, whosever turn it is. Two share one only if each has one."""
    with Server(snapd, *two(snapd), scanners=4) as server, contextlib.ExitStack() as peers:
        streams = [peers.enter_context(server.connect()) for _ in range(4)]
        comes_to([1, 1, 1, 1, 0], server.polled)
        streams[1].close()
        streams[3].close()
        comes_to(2, lambda: sum(server.polled()))

        def is_spread():
            # (A worker may not have said yet that it let go of its own.)
            with server.connect(), server.connect():
                comes_to(4, lambda: sum(server.polled()))
                spread = server.polled()
            comes_to(2, lambda: sum(server.polled()))
            return spread == [1, 1, 1, 1, 0]

        wait_until(is_spread, "a worker for each")
        for _ in range(3):
            peers.enter_context(server.connect())
        comes_to([2, 1, 1, 1, 0], server.polled)


# ---- addresses ----

def test_address_in_use(snapd, _):
    with Server(snapd, *fresh(snapd, 1)) as server:
        segments(snapd, HELD, FRESH)
        snapd.file("folder").mkdir()
        files = segments(snapd, HELD, FRESH, folder="folder")
        run = snapd("serve", server.address, *files)
        assert (run.status, run.output.decode()) == (1, REPORT), run
        assert run.errors.startswith(f"snapd: {server.address}: can't listen there: Address already in use"), run
        assert run.errors.count("\n") == 1, run


def test_addresses_that_the_system_does_not_take(snapd, _):
    files = two(snapd)
    for address in ("127.0.0.1:65536", "127.0.0.1:port", "nowhere.invalid:0", "256.0.0.1:0", "192.0.2.1:0"):
        run = snapd("serve", address, *files)
        assert (run.status, run.output.decode()) == (1, REPORT), (address, run)
        assert run.errors.startswith(f"snapd: {address}: can't listen there: "), (address, run)
        assert run.errors.count("\n") == 1, (address, run)
    # Nothing was left: the files are free.
    assert snapd("get", "S0", "--count", 2).gave(0, "hi")


# ---- files ----

def remedy(refusal, file, index, count, fault=""):
    """The second line about this file, of segment `index` of `count`, after that of the refusal."""
    # (the place of a file of the old format isn't known, so these two are letters)
    index, count = ("I", "N") if refusal == "14, 20,480 bytes" else (index, count)
    words = {"FILE": file, "I": str(index), "N": str(count), "CALL: REASON": fault}
    return f"{file}: " + re.sub(r"\b(FILE|CALL: REASON|I|N)\b", lambda it: words[it[0]], REMEDIES[refusal])


def file_faults(snapd):
    """Files that can't be served as segment 1 of 3, with the status and what is said of each."""
    place = {"index": 1, "count": 3}
    snapd.file("damaged").write_bytes(layout.holding((4, b"a"), (6, b"b"), **place))
    snapd.file("unformatted").write_bytes(bytes(layout.LENGTH))
    snapd.file("empty").write_bytes(b"")
    snapd.file("short").write_bytes(bytes(layout.LENGTH - 1))
    snapd.file("old").write_bytes(layout.OLD.holding((1, b"a"), **place))
    snapd.file("another").write_bytes(layout.holding((1, b"a"), index=0, count=3))
    snapd.file("folder").mkdir()
    return [
        ("missing", 1, [f"missing: {remedies.MISSING}", remedies.no_file("missing")]),
        ("folder", 1, ["folder: Is a directory (os error 21)", "folder: it is a folder: give it as --dir folder"]),
        ("damaged", 3, ["refused 10 Damaged", remedy("10", "damaged", **place)]),
        ("unformatted", 3, ["refused 11 Unformatted", remedy("11", "unformatted", **place)]),
        ("empty", 3, ["refused 14 WrongFile", remedy("14, no byte", "empty", **place)]),
        ("old", 3, ["refused 14 WrongFile", remedy("14, 20,480 bytes", "old", **place)]),
        *[
            (name, 3, ["refused 14 WrongFile", remedy("14, any other file", name, **place)])
            for name in ("short", "another")
        ],
    ]


def test_files_that_cannot_be_served(snapd, _):
    """The file is named, nothing is printed, no address is bound, and no file is changed."""
    first, _, last = segments(snapd, HELD, FRESH, FRESH)
    for file, status, lines in file_faults(snapd):
        before = {name: snapd.file(name).read_bytes() for name in (first, last)}
        run = snapd("serve", "127.0.0.1:0", first, file, last)
        run.gave(status, errors="".join(f"snapd: {line}\n" for line in lines))
        if file in ("unformatted", "empty", "old"):
            # A command on this file alone says the same.
            snapd("get", file, "--index", 1, "--count", 3).gave(status, errors=run.errors)
        if file == "empty":
            # What the line says to go on with makes it a file that is served.
            snapd(*run.errors.rpartition("snapd ")[2].split()).gave(0, "formatted 1 of 3\n")
            with Server(snapd, first, file, last) as server:
                assert server.scan() == [(1, b"hi"), (0, b""), (0, b"")]
        assert before == {name: snapd.file(name).read_bytes() for name in (first, last)}


def test_each_remedy_is_documented(snapd, _):
    """The text of 13 is met by a start on a failing disk, the others by the files above."""
    assert list(REMEDIES) == ["10", "11", "13", "14, no byte", "14, 20,480 bytes", "14, any other file"]


def test_files_in_another_order_are_told_the_right_one(snapd, _):
    first, second, third = segments(snapd, HELD, FRESH, FRESH)
    before = {name: snapd.file(name).read_bytes() for name in (first, second, third)}
    order = f"snapd: each file names its segment, and this is their order: {first} {second} {third}\n"
    for files, refused in (
        ((second, first, third), (second, 0, 3)),
        ((first, third, second), (third, 1, 3)),
        ((third, second, first), (third, 0, 3)),
    ):
        line = remedy("14, any other file", refused[0], index=refused[1], count=refused[2])
        run = snapd("serve", "127.0.0.1:0", *files)
        run.gave(3, errors=f"snapd: refused 14 WrongFile\nsnapd: {line}\n{order}")
    with Server(snapd, *run.errors.rpartition("order: ")[2].split()) as server:
        assert server.scan() == [(1, b"hi"), (0, b""), (0, b"")]
        # Where they can't be read nothing more is said.
        snapd("serve", "127.0.0.1:0", second, first, third).failed_with(1)
    # Some of them alone are no server, in any order.
    for files in ((second, first), (first,), (third,)):
        line = remedy("14, any other file", files[0], index=0, count=len(files))
        snapd("serve", "127.0.0.1:0", *files).gave(3, errors=f"snapd: refused 14 WrongFile\nsnapd: {line}\n")
    # In their order, one that is damaged has its own line and no other.
    snapd.file(second).write_bytes(layout.holding((4, b"a"), (6, b"b"), index=1, count=3))
    run = snapd("serve", "127.0.0.1:0", first, second, third).failed_with(3)
    assert run.errors.count("\n") == 2, run.errors
    assert all(snapd.file(name).read_bytes() == before[name] for name in (first, third))


def test_the_first_file_that_fails_is_named(snapd, _):
    """Paths come first, in order, and then what they hold, in order."""
    file_faults(snapd)
    first, second, third = segments(snapd, HELD, FRESH, FRESH)
    for files, status, name in [
        (("missing", "folder", third), 1, "missing"),
        ((first, "damaged", "missing"), 1, "missing"),
        ((first, "damaged", "another"), 3, "damaged"),
        ((second, "damaged", third), 3, second),
        ((first, second, "damaged"), 3, "damaged"),
    ]:
        run = snapd("serve", "127.0.0.1:0", *files).failed_with(status)
        others = {"missing", "folder", "damaged", "another", first, second, third} - {name}
        assert f"{name}" in run.errors and not any(f"{it}:" in run.errors for it in others), (files, run)


def test_file_in_use(snapd, _):
    files = two(snapd)
    in_use = "snapd: S0: it is in use by another snapd\n"
    with Server(snapd, *files):
        snapd("serve", "127.0.0.1:0", *files).gave(1, errors=in_use)
        for command in ("put", "get"):
            snapd(command, "S0", "--count", 2, stdin="ho").gave(1, errors=in_use)
        snapd("check", "S0").gave(1, errors=in_use)
        snapd("format", "S1", "--index", 1, "--count", 2).gave(1, errors=in_use.replace("S0", "S1"))
    # The locks end with the process.
    snapd("get", "S0", "--count", 2).gave(0, "hi")
    put = subprocess.Popen([snapd.path, "put", "S1", "--index", "1", "--count", "2"], cwd=snapd.folder,
                           stdin=subprocess.PIPE, stdout=subprocess.DEVNULL)
    try:
        # It has its lock before it reads. A try for the lock would be in its way.
        put.stdin.write(b"h")
        put.stdin.flush()
        is_read(put.stdin)
        snapd("serve", "127.0.0.1:0", *files).gave(1, errors=in_use.replace("S0", "S1"))
    finally:
        put.communicate(b"o")
    with Server(snapd, *files) as server:
        assert server.scan() == [(1, b"hi"), (1, b"ho")]
    # One file can't be two segments.
    snapd("serve", "127.0.0.1:0", "S0", "S0").gave(
        1, errors="snapd: S0: it is the same file as S0: each file is named once\n"
    )


def test_a_stop_by_any_signal_keeps_all(snapd, _):
    files = two(snapd)
    for number, stop in enumerate((signal.SIGTERM, signal.SIGINT, signal.SIGKILL), start=1):
        with Server(snapd, *files) as server:
            server.ask(update(1, number, b"%d" % number), stored(number))
            server.process.send_signal(stop)
            server.process.wait(timeout=PATIENCE)
    with Server(snapd, *files) as server:
        assert server.scan() == [(1, b"hi"), (3, b"3")]


def state_of(process):
    """The letter by which the system names what a process does: `T` where it is stopped."""
    with open(f"/proc/{process.pid}/stat", encoding="ascii") as it:
        return it.read().rpartition(") ")[2][0]


def test_it_serves_on_behind_a_pause(snapd, _):
    """As by a shell's Ctrl-Z and `fg`: what waits meanwhile is answered,
    on connections that are there and on new ones."""
    with Server(snapd, *two(snapd)) as server, server.connect() as beside:
        for number in (1, 2, 3):
            server.process.send_signal(signal.SIGSTOP)
            comes_to("T", lambda: state_of(server.process))
            beside.sendall(update(1, number, b"%d" % number))
            server.process.send_signal(signal.SIGCONT)
            assert received(beside, len(stored(number))) == stored(number)
            server.ask(SCAN, snapshot((1, b"hi"), (number, b"%d" % number)))
        server.process.send_signal(signal.SIGSTOP)
        comes_to("T", lambda: state_of(server.process))
        server.process.send_signal(signal.SIGCONT)
        assert server.scan()[1] == (3, b"3") and server.process.poll() is None


# ---- calls ----

def test_what_call_prints(snapd, _):
    with Server(snapd, *two(snapd), more=("--log", "debug")) as server:
        call = lambda *words: snapd("call", server.address, *words)  # noqa: E731
        call("update", 0, 2, "C0ffee").gave(0, "stored 2\n")
        call("update", 0, 2, "c0FFEE").gave(0, "stored 2\n")
        call("update", 1, 1, "-").gave(0, "stored 1\n")
        call("scan").gave(0, "segment 0 number 2 value c0ffee\nsegment 1 number 1 value -\n")
        call("status").gave(0, "segment 0 number 2 fenced 0\nsegment 1 number 1 fenced 0\n")
        longest = "5a" * layout.MAX_VALUE
        call("update", 1, 2, longest).gave(0, "stored 2\n")
        call("scan").gave(0, f"segment 0 number 2 value c0ffee\nsegment 1 number 2 value {longest}\n")
        for words, text in [
            (("update", 2, 1, "-"), "2 NoSegment 2"), (("update", 255, 1, "-"), "2 NoSegment 2"),
            (("update", 0, 3, "00" * 4_081), "3 TooLong 4081"), (("update", 0, 3, "00" * 65_000), "3 TooLong 65000"),
            (("update", 0, 2, "-"), "4 Conflict 2"), (("update", 0, 4, "-"), "5 OutOfStep 2"),
            (("update", 0, 0, "-"), "5 OutOfStep 2"), (("update", 0, 2**64 - 1, "-"), "5 OutOfStep 2"),
        ]:
            call(*words).gave(3, errors=f"snapd: refused {text}\n")
        comes_to(15, lambda: len(server.logged("DEBUG", "connection")))


def test_nobody_listens(snapd, _):
    address = f"127.0.0.1:{free_port()}"
    for words in (("scan",), ("status", "--tries", 3), ("update", 0, 1, "-", "--tries", 2)):
        run = snapd("call", address, *words).failed_with(1, address)
        assert run.errors.count("\n") == 2, run
    for address in ("nowhere", "127.0.0.1", "127.0.0.1:65536", ""):
        snapd("call", address, "scan").failed_with(1, f"snapd: {address}: ")


class Peer:
    """Handles its connections one after another, each by the next of these functions, and then listens no more."""

    def __init__(self, *handlers):
        self.listener = socket.create_server(("127.0.0.1", 0))
        self.address = "{}:{}".format(*self.listener.getsockname())
        self.thread = threading.Thread(target=self.run, args=(handlers,), daemon=True)
        self.thread.start()

    def run(self, handlers):
        for handle in handlers:
            stream, _ = self.listener.accept()
            with stream:
                stream.settimeout(PATIENCE)
                handle(stream)
        self.listener.close()

    def done(self):
        self.thread.join(PATIENCE)
        assert not self.thread.is_alive(), "fewer connections came than were to come"


def test_third_try_succeeds(snapd, _):
    """The first connection is cut, the second ends after the server has stored, and the third is answered the same."""
    with Server(snapd, *fresh(snapd, 1)) as server:
        def stores(stream):
            server.ask(received(stream, 16), stored(1))

        def passes_on(stream):
            with server.connect() as behind:
                behind.sendall(received(stream, 16))
                stream.sendall(received(behind, 13))
            stream.recv(1)

        peer = Peer(reset, stores, passes_on)
        snapd("call", peer.address, "update", 0, 1, "6869", "--tries", 3).gave(0, "stored 1\n")
        peer.done()
        assert server.scan() == [(1, b"hi")]
        # With one try less it isn't known whether it was stored: the same words again show that.
        peer = Peer(reset, lambda stream: server.ask(received(stream, 16), stored(2)))
        snapd("call", peer.address, "update", 0, 2, "6869", "--tries", 2).failed_with(1, peer.address)
        peer.done()
        snapd("call", server.address, "update", 0, 2, "6869").gave(0, "stored 2\n")


def test_what_is_no_answer_is_not_tried_again(snapd, _):
    def says(text):
        def handle(stream):
            received(stream, 5)
            stream.sendall(frame(bytes.fromhex(text)))
            stream.recv(1)
        return handle

    for text in ("", "81", "ff", "8200", "e012" + "00" * 8, "81" + "00" * 8):
        peer = Peer(says(text))
        run = snapd("call", peer.address, "scan", "--tries", 3).failed_with(1, peer.address)
        assert run.errors.count("\n") == 1, run
        peer.done()
    peer = Peer(says("e011" + "00" * 8))
    snapd("call", peer.address, "scan", "--tries", 3).gave(3, errors="snapd: refused 17 Worn 0\n")
    peer.done()


# ---- standard streams ----

def test_standard_output_that_is_closed_or_full(snapd, _):
    files = two(snapd)
    for command in (["serve", "127.0.0.1:0", *files], ["call", "ADDRESS", "scan"]):
        with Server(snapd, *fresh(snapd, 1, folder=made(snapd, "other"))) as server:
            words = [server.address if word == "ADDRESS" else word for word in command]
            for closed in (True, False):
                with open("/dev/full", "wb") as full:
                    shut = (lambda: os.close(1)) if closed else None
                    run = snapd(*words, stdout=full, preexec_fn=shut)
                assert run.status == 1 and run.errors.startswith("snapd: standard output: "), (command, closed, run)
    snapd("get", "S0", "--count", 2).gave(0, "hi")


def test_what_was_stored_is_said_where_it_cannot_be_printed(snapd, _):
    with Server(snapd, *two(snapd)) as server, open("/dev/full", "wb") as full:
        run = snapd("call", server.address, "update", 1, 1, "00", stdout=full)
        assert (
            run.status == 1 and run.errors.startswith("snapd: stored 1, but standard output: No space left on device")
        ), run
        snapd("call", server.address, "update", 1, 1, "00").gave(0, "stored 1\n")


def made(snapd, name):
    snapd.file(name).mkdir(exist_ok=True)
    return name


def test_nobody_reads_the_report(snapd, _):
    """Standard output is a pipe whose reader is closed."""
    reader, writer = os.pipe()
    os.close(reader)
    with open(writer, "wb", buffering=0) as gone:
        run = snapd("serve", "127.0.0.1:0", *two(snapd), stdout=gone)
    assert run.status == 1 and run.errors.startswith("snapd: standard output: "), run


def test_it_serves_on_where_standard_error_is_full(snapd, _):
    with open("/dev/full", "wb") as full:
        process = subprocess.Popen([snapd.path, "serve", "127.0.0.1:0", *two(snapd)], cwd=snapd.folder,
                                   stdout=subprocess.PIPE, stderr=full)
    try:
        lines = [process.stdout.readline().decode() for _ in range(4)]
        address = lines[-1].removeprefix("listening ").strip()
        for _ in range(20):
            snapd("call", address, "status").gave(0, "segment 0 number 1 fenced 0\nsegment 1 number 0 fenced 0\n")
    finally:
        process.kill()
        process.communicate()


# ---- notes ----

def test_each_end_is_noted_with_its_peer(snapd, _):
    """One line each on standard error: the peer's address, and how its connection ended."""
    with Server(snapd, *two(snapd), connections=4, more=("--log", "debug")) as server:
        wanted = {}

        def ends(how, sent, replies, ending):
            stream = server.connect()
            wanted["{}:{}".format(*stream.getsockname())] = how
            stream.sendall(sent)
            assert received(stream, len(replies)) == replies
            ending(stream)

        scanned = snapshot((1, b"hi"), (0, b""))
        ends("closed", SCAN, scanned, socket.socket.close)
        ends("ended inside a request", SCAN + b"\0\0", scanned, socket.socket.close)
        ends("sent a frame above the limit", SCAN + OVER_THE_LIMIT, scanned + TOO_LARGE, to_its_end)
        ends("lost while it was read", SCAN, scanned, reset)
        run = server.end()
        assert (run.status, run.output) == (0, b"served 4\n"), run
        found = {}
        for text in server.logged("DEBUG", "connection"):
            peer, _, how = text.partition(" ")
            found[peer] = how
        assert found == wanted, run.errors
