"""`snapd watch`: what it prints at its start and at each change, as text, as JSON and in a terminal,
and what it does without a server."""

import contextlib
import errno
import json
import os
import re
import select
import signal
import socket
import subprocess
import threading
import time

from program import Skipped
from serving import FRESH, AtSocket, Server, free_port, fresh, received, refused, segments, standings, stored, update
from terminal import Terminal
from test_serve_disks import Disk
from waiting import PATIENCE, comes_to

HELD = [(0, b""), (1, b"hi")]
# Polls often, so that a test needn't wait.
OFTEN = ("--every", "10")


class Watch:
    """A `snapd watch` that runs, and what it has printed. It is ended at the end of a `with`."""

    def __init__(self, snapd, address, *words, output=None, often=OFTEN, env=None, before=None):
        self.errors = snapd.file(f"watch-errors-{time.monotonic_ns()}")
        words = [snapd.path, "watch", address, *map(str, words), *often]
        with open(self.errors, "wb") as errors:
            self.process = subprocess.Popen(
                words, cwd=snapd.folder, stdin=subprocess.DEVNULL, stdout=output or subprocess.PIPE, stderr=errors,
                env={**{it: os.environ[it] for it in os.environ if it != "NO_COLOR"}, **(env or {})}, preexec_fn=before,
            )
        self.text = b""

    def __enter__(self):
        return self

    def __exit__(self, *_):
        self.process.kill()
        self.process.wait()
        if self.process.stdout:
            self.process.stdout.close()

    def lines(self, count):
        """The next `count` lines."""
        until = time.monotonic() + PATIENCE
        while self.text.count(b"\n") < count:
            ready, _, _ = select.select([self.process.stdout], [], [], until - time.monotonic())
            piece = os.read(self.process.stdout.fileno(), 65_536) if ready else b""
            assert piece, (self.text, self.notes())
            self.text += piece
        *lines, self.text = self.text.split(b"\n", count)
        return [it.decode() for it in lines]

    def is_silent(self, seconds=0.3):
        """Whether it prints nothing for a while, in which it polls again and again."""
        ready, _, _ = select.select([self.process.stdout], [], [], seconds)
        return not ready and self.text == b""

    def notes(self):
        """The lines on standard error so far."""
        return self.errors.read_text().splitlines()

    def told(self):
        """What the lines on standard error end in: what went before may be that no connection is made,
        or that one failed."""
        assert all(re.fullmatch(r"snapd: \S+: .*", it) for it in self.notes()), self.notes()
        return [it.rpartition(": ")[2] for it in self.notes()]


def two(snapd):
    """Two files: a fresh one, and `hi` as number 1."""
    return segments(snapd, FRESH, HELD)


def row(segment, number, shown, fenced=0):
    return f"segment {segment} number {number} fenced {fenced} {shown}"


def test_all_is_shown_and_then_each_change(snapd, _):
    with Server(snapd, *two(snapd)) as server, Watch(snapd, server.address) as watch:
        assert watch.lines(2) == [row(0, 0, 'text ""'), row(1, 1, 'text "hi"')]
        assert watch.is_silent()
        server.ask(update(1, 2, b"so\n"), stored(2))
        assert watch.lines(1) == [row(1, 2, 'text "so\\n"')]
        server.ask(update(0, 1, b"\x00\xff"), stored(1))
        assert watch.lines(1) == [row(0, 1, "value 00ff")]
        server.ask(update(0, 1, b"\x00\xff"), stored(1))
        assert watch.is_silent() and watch.notes() == []
        watch.process.send_signal(signal.SIGINT)
        assert watch.process.wait(PATIENCE) == -signal.SIGINT


def test_of_many_changes_between_two_looks_the_last_is_shown(snapd, _):
    with Server(snapd, *fresh(snapd, 1)) as server, Watch(snapd, server.address, often=("--every", "300")) as watch:
        assert watch.lines(1) == [row(0, 0, 'text ""')]
        with server.connect() as stream:
            for number in range(1, 51):
                stream.sendall(update(0, number, b"%d" % number))
                assert received(stream, len(stored(number))) == stored(number)
        shown = [watch.lines(1)[0]]
        while shown[-1] != row(0, 50, 'text "50"'):
            shown += watch.lines(1)
        assert shown == sorted(set(shown), key=lambda it: int(it.split()[3])) and len(shown) < 50, shown


def test_the_named_segments_alone(snapd, _):
    with Server(snapd, *fresh(snapd, 16)) as server, Watch(snapd, server.address, 15, 3, 3) as watch:
        assert watch.lines(2) == [row(3, 0, 'text ""'), row(15, 0, 'text ""')]
        server.ask(update(4, 1, b"x"), stored(1))
        assert watch.is_silent()
        server.ask(update(15, 1, b"x"), stored(1))
        assert watch.lines(1) == [row(15, 1, 'text "x"')]


def test_objects_are_those_of_a_scan_with_the_fence(snapd, _):
    with Server(snapd, *two(snapd)) as server:
        server.ask(update(0, 1, b'\xff"\x01'), stored(1))
        scanned = json.loads(snapd("call", server.address, "scan", "--json").output)["segments"]
        with Watch(snapd, server.address, "--json") as watch:
            assert [json.loads(it) for it in watch.lines(2)] == [{**it, "fenced": False} for it in scanned]
            server.ask(update(1, 2, '"\x01é'.encode()), stored(2))
            assert watch.lines(1) == ['{"segment":1,"number":2,"fenced":false,"text":"\\"\\u0001é"}']


def test_a_fence_is_shown(snapd, _):
    disk = Disk(snapd)
    with Server(snapd, *two(snapd), env=disk.env) as server, Watch(snapd, server.address) as watch:
        watch.lines(2)
        disk.says(f"S1 sync fail {errno.EIO}")
        server.ask(update(1, 2, b"x"), refused(13, 1))
        assert watch.lines(1) == [row(1, 1, 'text "hi"', fenced=1)]
        assert watch.is_silent()


def test_at_a_socket(snapd, _):
    with AtSocket(snapd, *two(snapd), address="unix:snapd.sock") as server, Watch(snapd, "unix:snapd.sock", 1) as watch:
        assert watch.lines(1) == [row(1, 1, 'text "hi"')]
        server.ask(update(1, 2, b"x"), stored(2))
        assert watch.lines(1) == [row(1, 2, 'text "x"')]


def test_a_segment_that_the_server_lacks_is_refused(snapd, _):
    with Server(snapd, *two(snapd)) as server:
        for words in (["2"], ["0", "15"]):
            snapd("watch", server.address, *words).gave(3, errors="snapd: refused 2 NoSegment 2\n")


def test_addresses_that_lack_a_part(snapd, _):
    snapd("watch", "127.0.0.1").failed_with(1, "the port is missing")
    snapd("serve", "127.0.0.1:0", "F", "--http", ":7071").failed_with(
        1, ":7071: an address is HOST:PORT or unix:PATH, and the host is missing"
    )


def test_no_server_at_the_start(snapd, _):
    port = free_port()
    snapd("watch", f"127.0.0.1:{port}").gave(
        1, errors=f"snapd: 127.0.0.1:{port}: Connection refused (os error 111): start snapd serve there\n"
    )
    snapd("watch", "unix:none").gave(
        1, errors="snapd: unix:none: No such file or directory (os error 2): start snapd serve there\n"
    )


def test_a_server_that_goes_away_and_comes_back(snapd, _):
    files, address = two(snapd), f"127.0.0.1:{free_port()}"
    lost, back = "trying again", "connected again"
    with contextlib.ExitStack() as all_of_it:
        with Server(snapd, *files, address=address):
            watch = all_of_it.enter_context(Watch(snapd, address))
            assert watch.lines(2) == [row(0, 0, 'text ""'), row(1, 1, 'text "hi"')]
        comes_to([lost], watch.told)
        assert watch.is_silent() and watch.told() == [lost]
        with Server(snapd, *files, address=address) as server:
            comes_to([lost, back], watch.told)
            assert watch.is_silent()
            server.ask(update(0, 1, b"x"), stored(1))
            assert watch.lines(1) == [row(0, 1, 'text "x"')]
        comes_to([lost, back, lost], watch.told)
        snapd("put", files[1], "--index", 1, "--count", 2, stdin="later").gave(0, "stored 2\n")
        with Server(snapd, *files, address=address):
            assert watch.lines(1) == [row(1, 2, 'text "later"')]
            comes_to([lost, back, lost, back], watch.told)


def test_a_connection_that_was_let_go_of_is_no_loss(snapd, _):
    with (
        Server(snapd, *fresh(snapd, 1), more=("--idle", "1")) as server,
        Watch(snapd, server.address, often=("--every", "2500")) as watch,
    ):
        assert watch.lines(1) == [row(0, 0, 'text ""')]
        server.ask(update(0, 1, b"x"), stored(1))
        assert watch.lines(1) == [row(0, 1, 'text "x"')] and watch.notes() == []


def test_an_output_that_is_closed_ends_it(snapd, _):
    with Server(snapd, *two(snapd)) as server, Watch(snapd, server.address) as watch:
        watch.lines(2)
        watch.process.stdout.close()
        server.ask(update(0, 1, b"x"), stored(1))
        assert watch.process.wait(PATIENCE) == 1 and watch.notes() == []
        watch.process.stdout = None


def test_an_output_that_is_closed_ends_it_at_rest(snapd, _):
    """At the next poll, though there is nothing to print."""
    with Server(snapd, *two(snapd)) as server, Watch(snapd, server.address) as watch:
        watch.lines(2)
        watch.process.stdout.close()
        watch.process.stdout = None
        assert watch.process.wait(PATIENCE / 4) == 1 and watch.notes() == []


class Stalled:
    """A peer that takes one connection, and answers nothing on it,
    or a byte of the answer to a status each half second."""

    def __init__(self, is_trickling):
        self.listener = socket.create_server(("127.0.0.1", 0))
        self.listener.settimeout(PATIENCE)
        self.address = "127.0.0.1:%d" % self.listener.getsockname()[1]
        self.is_trickling, self.is_over = is_trickling, threading.Event()
        self.thread = threading.Thread(target=self.serve)

    def __enter__(self):
        self.thread.start()
        return self

    def __exit__(self, *_):
        self.is_over.set()
        self.thread.join()
        self.listener.close()

    def serve(self):
        with self.listener.accept()[0] as stream, contextlib.suppress(OSError):
            for byte in standings(*[(0, False)] * 16):
                if self.is_over.wait(0.5):
                    break
                if self.is_trickling:
                    stream.send(bytes([byte]))


def test_a_server_that_hangs_is_lost_within_ten_seconds(snapd, _):
    """Before its first answer and after it, as lines and on a board; a peer that trickles, too."""
    late = "there was no answer within 10 s"
    with contextlib.ExitStack() as all_of_it:
        begin = all_of_it.enter_context
        server, terminal = begin(Server(snapd, *two(snapd))), begin(Terminal())
        lines, board = begin(Watch(snapd, server.address)), begin(Watch(snapd, server.address, output=terminal.side))
        lines.lines(2)
        terminal.board()
        server.process.send_signal(signal.SIGSTOP)
        began = time.monotonic()
        peers = [begin(Stalled(it)) for it in (False, True)]
        first = [begin(Watch(snapd, it.address)) for it in peers]
        shown = terminal.comes_to(lambda it: not it[0].endswith("connected"))
        assert shown[0] == f"{server.address}: {late}: trying again" and told(shown[3])[5] == '"hi"', shown
        comes_to([f"snapd: {server.address}: {late}: trying again"], lines.notes)
        for watch, peer in zip(first, peers):
            assert watch.process.wait(PATIENCE) == 1
            assert watch.notes() == [f"snapd: {peer.address}: {late}: see what serves there"], watch.notes()
        assert 9 < time.monotonic() - began < 15, time.monotonic() - began
        server.process.send_signal(signal.SIGCONT)
        terminal.comes_to(lambda it: it[0] == f"{server.address}: connected")
        comes_to(["trying again", "connected again"], lines.told)
        assert lines.is_silent()


def test_a_full_disk_is_told(snapd, _):
    with Server(snapd, *two(snapd)) as server, open("/dev/full", "wb") as full:
        snapd("watch", server.address, stdout=full).gave(
            1, errors="snapd: standard output: No space left on device (os error 28)\n"
        )


HEAD = "segment      number   age    rate  state   value"
# In which colours are wanted, though the tests may run where they aren't.
COLOURED = {"NO_COLOR": ""}


def told(line):
    """The fields of a segment's line, the value as one."""
    return line.split(maxsplit=5)


def test_a_board_in_a_terminal(snapd, _):
    with Server(snapd, *two(snapd)) as server, Terminal() as terminal:
        terminal.screen.take("before\r\n")
        watch = Watch(snapd, server.address, output=terminal.side, env=COLOURED)
        with watch:
            shown = terminal.board()
            assert shown[:3] == ["before", f"{server.address}: connected", HEAD] and not any(shown[5:]), shown
            assert (
                told(shown[3]) == ["0", "0", "-", "-", "ok", '""']
                and told(shown[4]) == ["1", "1", "-", "-", "ok", '"hi"']
            ), shown
            assert shown[3] == '      0           0     -       -  ok      ""', shown
            server.ask(update(1, 2, bytes(range(256))), stored(2))
            shown = terminal.comes_to(lambda it: told(it[4])[1] == "2")
            assert told(shown[4])[5] == bytes(range(256)).hex()[:79 - 43], shown
            server.ask(
                update(1, 3, "\x85\u00e9".encode()) + update(1, 4, b"\x7f") + update(1, 5, "\u00e9\n".encode()),
                stored(3) + stored(4) + stored(5),
            )
            terminal.comes_to(lambda it: told(it[4])[1:] == ["5", "0s", told(it[4])[3], "ok", '"\u00e9\\n"'])
            terminal.comes_to(lambda it: told(it[4])[2] == "2s" and told(it[3])[2] == "-" and told(it[3])[3] == "0.0")
            assert terminal.screen.gone == [] and terminal.screen.line == 5
        assert watch.notes() == []


def test_a_board_is_cut_by_width_and_height(snapd, _):
    """At each size: the first lines but one, each as wide as fits, and nothing that leaves the terminal at its top."""
    files = segments(snapd, *[[(0, b""), (1, b"v" * 4_080)]] * 16)
    with (
        Server(snapd, *files) as server,
        Terminal(200, 40) as terminal,
        Watch(snapd, server.address, output=terminal.side),
    ):
        whole = terminal.comes_to(lambda it: told(it[17])[3:5] == ["0.0", "ok"])
        assert len(whole[17]) == 199 and not any(whole[18:]) and terminal.screen.gone == []
        for columns, lines in [
            (80, 24), (80, 19), (80, 18), (80, 10), (80, 3), (44, 2), (20, 30), (2, 2), (1, 1), (200, 40),
        ]:
            terminal.resize(columns, lines)
            gone = len(terminal.screen.gone)
            terminal.board()
            shown = terminal.board()
            assert (
                shown[: lines - 1] == [it[: columns - 1].rstrip() for it in whole[: lines - 1]]
            ), (columns, lines, shown)
            assert shown[lines - 1] == "" and len(terminal.screen.gone) == gone, (columns, lines)
    with (
        Server(snapd, *files) as server,
        Terminal(30, 5) as terminal,
        Watch(snapd, server.address, output=terminal.side),
    ):
        shown = terminal.board()
        gone = len(terminal.screen.gone)
        assert shown[1] == HEAD[:29].rstrip() and gone <= 18 and not any(terminal.screen.gone)
        for _ in range(20):
            terminal.board()
        assert len(terminal.screen.gone) == gone


def test_colours(snapd, _):
    disk = Disk(snapd)
    with Server(snapd, *two(snapd), env=disk.env) as server:
        disk.says(f"S1 sync fail {errno.EIO}")
        server.ask(update(1, 2, b"x"), refused(13, 1))
        for said, is_coloured in [
            ({"NO_COLOR": "1"}, False), ({"NO_COLOR": "0"}, False), (COLOURED, True), (None, True),
        ]:
            with Terminal() as terminal, Watch(snapd, server.address, output=terminal.side, env=said):
                assert told(terminal.board()[3])[4:] == ["fenced", '"hi"']
                assert ("\x1b[31mfenced\x1b[0m  " in terminal.told) == is_coloured, terminal.told
                assert re.search(r"\x1b\[[0-9;]*m", terminal.told) is None or is_coloured, terminal.told


def test_why_a_server_is_lost_is_red(snapd, _):
    """The reason alone, where colours are wanted; the names of the columns are bold."""
    for env, red, bold, plain in ((COLOURED, "\x1b[31m", "\x1b[1m", "\x1b[0m"), ({"NO_COLOR": "1"}, "", "", "")):
        with Terminal() as terminal, contextlib.ExitStack() as watching:
            with Server(snapd, *fresh(snapd, 1)) as server:
                watching.enter_context(Watch(snapd, server.address, output=terminal.side, env=env))
                terminal.board()
            none = "no connection to the server can be made"
            terminal.comes_to(lambda it: it[0] == f"{server.address}: {none}: trying again")
            title = f"{server.address}: {red}{none}{plain}: trying again\x1b[K\r\x1b[B"
            assert f"{title}{bold}{HEAD}{plain}\x1b[K" in terminal.told, terminal.told


def ending(snapd, address, output):
    """A watch that signals end, also if the tests run with them ignored, as with `nohup` or `&` of a script."""
    def heed():
        for number in (signal.SIGINT, signal.SIGTERM, signal.SIGHUP):
            signal.signal(number, signal.SIG_DFL)

    return Watch(snapd, address, output=output, before=heed)


def test_the_terminal_is_given_back_at_any_end(snapd, _):
    for number in (signal.SIGINT, signal.SIGTERM, signal.SIGHUP, signal.SIGKILL):
        with (
            Server(snapd, *two(snapd)) as server,
            Terminal() as terminal,
            ending(snapd, server.address, terminal.side) as watch,
        ):
            shown = terminal.board()
            watch.process.send_signal(number)
            assert watch.process.wait(PATIENCE) == -number
            terminal.rest()
            assert terminal.screen.is_given_back() and terminal.screen.line == 4, number
            assert (
                terminal.screen.text()[0] == f"{server.address}: connected"
                and told(terminal.screen.text()[3])[1] == "1"
            ), shown


def test_a_board_of_a_server_that_goes_away_and_comes_back(snapd, _):
    files, address = two(snapd), f"127.0.0.1:{free_port()}"
    why = "no connection to the server can be made|the connection failed before the answer came"
    lost = re.compile(rf"{re.escape(address)}: ({why}): trying again")
    with Terminal() as terminal:
        terminal.screen.take("before\r\n")
        with Server(snapd, *files, address=address):
            watch = Watch(snapd, address, output=terminal.side)
            terminal.board()
        with watch:
            shown = terminal.comes_to(lambda it: lost.fullmatch(it[1]))
            assert told(shown[4])[1] == "1" and told(shown[4])[4:] == ["ok", '"hi"'], shown
            with Server(snapd, *segments(snapd, *[FRESH] * 3, [(0, b""), (9, b"y")]), address=address):
                shown = terminal.comes_to(lambda it: it[1] == f"{address}: connected")
                assert told(shown[6])[1:2] + told(shown[6])[4:] == ["9", "ok", '"y"'], shown
                assert told(shown[4])[1:3] == ["0", "0s"] and shown[0] == "before", shown
            terminal.comes_to(lambda it: lost.fullmatch(it[1]))
            with Server(snapd, *fresh(snapd, 1), address=address):
                shown = terminal.comes_to(lambda it: it[1] == f"{address}: connected")
                assert not any(shown[4:]) and terminal.screen.line == 4 and shown[0] == "before", shown
            assert watch.notes() == []


def test_the_rate_is_that_of_the_updates(snapd, _):
    with Server(snapd, *fresh(snapd, 1)) as server, Terminal() as terminal:
        began = time.monotonic()
        with Watch(snapd, server.address, output=terminal.side):
            terminal.board()
            first = time.monotonic()
            for number in range(1, 31):
                time.sleep(0.05)
                last = time.monotonic()
                server.ask(update(0, number), stored(number))
            shown = terminal.comes_to(lambda it: told(it[2])[1] == "30")
            least, most = 30 / (time.monotonic() - began), 30 / (last - first)
            if time.monotonic() - began > 5:
                raise Skipped("this machine is too slow: a rate is told anew after five seconds")
            assert least - 0.1 <= float(told(shown[2])[3]) <= most + 0.1, (shown, least, most)
            terminal.comes_to(lambda it: told(it[2])[3] == "0.0")


def test_objects_in_a_terminal_are_lines(snapd, _):
    with Server(snapd, *fresh(snapd, 1)) as server, Terminal(80) as terminal:
        with Watch(snapd, server.address, "--json", output=terminal.side):
            wanted = '{"segment":0,"number":0,"fenced":false,"text":""}\r\n'
            until = time.monotonic() + PATIENCE
            while len(terminal.unread) < len(wanted):
                assert time.monotonic() < until
                terminal.unread += os.read(terminal.end, 4_096).decode()
            assert terminal.unread == wanted
