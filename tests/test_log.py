"""The log of `snapd serve`: its lines, and which of them are written."""

import datetime
import errno
import itertools
import os
import re
import subprocess

from serving import LOG_LINE, SCAN, Server, fresh, refused, snapshot, stored, update
from talk import CLOSED, told
from test_serve_disks import Disk
from test_serve_memory import Memory, of_both
from waiting import PATIENCE, comes_to, wait_until

# Starts a program whose JOURNAL_STREAM names its standard error, and one whose variable names another stream.
JOURNAL = ("sh", "-c", 'JOURNAL_STREAM="$(stat -L -c %d:%i /proc/self/fd/2)" exec "$@"', "sh")
ELSEWHERE = ("sh", "-c", 'JOURNAL_STREAM="$(stat -L -c %d:1%i /proc/self/fd/2)" exec "$@"', "sh")


def test_only_what_matters_is_logged(snapd, _):
    """Connections that come and go are no news, unless they are asked for; the start and the end are."""
    for more, count in (((), 2), (("--log", "warn"), 0), (("--log", "error"), 0), (("--log", "debug"), 5)):
        with Server(snapd, *fresh(snapd, 1), connections=3, more=more) as server:
            for _ in range(3):
                server.ask(SCAN, snapshot((0, b"")))
            run = server.end()
            assert (run.status, run.output) == (0, b"served 3\n"), run
            ended, lines = server.logged("DEBUG", "connection"), run.errors.splitlines()
            assert (
                len(lines) == len(server.logged()) == count and len(ended) == (3 if "debug" in more else 0)
            ), run.errors
            assert all(line.endswith(" closed") for line in ended), run.errors


def test_lines_of_several_threads_stay_whole(snapd, _):
    """Workers and the threads that store log at the same moment: each line is one, and none is missing."""
    disk = Disk(snapd)
    files, count = fresh(snapd, 4), 64
    with Server(snapd, *files, scanners=4, connections=count, env=disk.env, more=("--log", "debug")) as server:
        disk.says(*[f"{name} write fail {errno.EIO}" for name in files])
        streams = [server.connect() for _ in range(count)]
        for number, stream in enumerate(streams):
            stream.sendall(update(number % 4, 1, b"a"))
        for stream in streams:
            stream.recv(100)
            stream.close()
        lines = server.end().errors.splitlines()
        assert all(map(LOG_LINE.fullmatch, lines)), lines
        assert (len(server.logged("ERROR", "store")), len(server.logged("DEBUG", "connection"))) == (4, count), lines


def test_a_line_begins_with_the_time(snapd, _):
    with Server(snapd, *fresh(snapd, 1), connections=1, more=("--log", "debug")) as server:
        server.ask(SCAN, snapshot((0, b"")))
        line = server.end().errors
        time = datetime.datetime.fromisoformat(line.split()[0].replace("Z", "+00:00"))
        assert abs(datetime.datetime.now(datetime.timezone.utc) - time) < datetime.timedelta(minutes=5), line


def test_the_journal_keeps_the_time_itself(snapd, _):
    """And takes each line by the priority that it begins with. Another stream than the one that is named is no
    journal."""
    disk, anywhere = Disk(snapd), ("--listen", "0.0.0.0:0", "--log", "debug")
    numbers = {"ERROR": "3", "WARN": "4", "INFO": "6", "DEBUG": "7"}
    with Server(snapd, *fresh(snapd, 1), connections=2, env=disk.env, more=anywhere, before=JOURNAL) as server:
        server.ask(SCAN, snapshot((0, b"")))
        disk.says(f"S0 sync fail {errno.EIO}")
        server.ask(update(0, 1, b"a"), refused(13, 0))
        found = [re.fullmatch(r"<(\d)>([A-Z]+) (\w+): (.*)", line) for line in server.end().errors.splitlines()]
        assert all(it and numbers[it[2]] == it[1] for it in found), found
        assert (
            {it[2] for it in found} == set(numbers) and "DEBUG connection" in {f"{it[2]} {it[3]}" for it in found}
        ), found
    with Server(snapd, *fresh(snapd, 1), connections=0, before=ELSEWHERE) as server:
        lines = server.end().errors.splitlines()
        assert len(lines) == 2 and all(map(LOG_LINE.fullmatch, lines)), lines


# Names of files, and how a line has them.
NAMES = {
    "a\nb": "a\\nb", "c\r\td": "c\\r\\td", "\x1b[31m\x7f": "\\u{1b}[31m\\u{7f}",
    "\x80\x85\x9f": "\\u{80}\\u{85}\\u{9f}",
    "\u2027\u2028\u2029\u202a": "\u2027\\u{2028}\\u{2029}\u202a", "\u00a0\u00e9\\n": "\u00a0\u00e9\\n",
}


def test_a_line_is_one_whatever_is_in_it(snapd, _):
    """What ends a line or what a reader can't see is escaped, and a backslash isn't."""
    for name, made in zip(NAMES, fresh(snapd, len(NAMES))):
        snapd.file(made).rename(snapd.file(name))
    with Server(snapd, *NAMES) as server:
        comes_to(True, lambda: "\n" in server.errors.read_text())
        line = server.errors.read_text().split("\n")[0]
        behind = f": segments {len(NAMES)}, at {server.address}"
        assert f" serves {' '.join(NAMES.values())} as process " in line and line.endswith(behind), line


def lost_lines(server):
    """How many lines it says that it lost."""
    return sum(int(text.removeprefix("lines lost: ")) for text in server.logged("WARN", "log"))


def ends_of(server):
    """How many ends of connections it logged."""
    return len(server.logged("DEBUG", "connection") + server.logged("WARN", "connection"))


def test_lines_that_find_no_memory_are_told_of(snapd, _):
    """While there is none, ends of connections aren't logged; the next line that there is memory for says how many."""
    memory = Memory(snapd, "all")
    with (
        Server(snapd, *fresh(snapd, 1), scanners=1, env=memory.env, more=("--log", "debug")) as server,
        server.connect() as last,
    ):
        streams = [server.connect() for _ in range(3)]
        for stream in (*streams, last):
            assert told(stream, SCAN) == snapshot((0, b""))
        memory.runs_out()
        for stream in streams:
            stream.close()
        # Each is noted before its descriptor is given back.
        wait_until(lambda: server.connections() == 1)
        assert ends_of(server) == 0
        memory.is_there_again()
        last.close()
        comes_to((3, 1), lambda: (lost_lines(server), ends_of(server)))
        assert (
            server.notes()[-1].endswith(" closed") and server.notes()[-2].endswith("WARN log: lines lost: 3")
        ), server.notes()


def test_each_lost_line_is_told_of_once(snapd, _):
    """A line about lost ones says how many they were since the line before it that did."""
    memory = Memory(snapd, "all")
    with Server(snapd, *fresh(snapd, 1), scanners=1, env=memory.env, more=("--log", "debug")) as server:
        for turn, count in enumerate((3, 1, 2), 1):
            last, *streams = [server.connect() for _ in range(1 + count)]
            for stream in (last, *streams):
                assert told(stream, SCAN) == snapshot((0, b""))
            memory.runs_out()
            for stream in streams:
                stream.close()
            wait_until(lambda: server.connections() == 1)
            memory.is_there_again()
            last.close()
            comes_to(turn, lambda: ends_of(server))
        comes_to([f"lines lost: {count}" for count in (3, 1, 2)], lambda: server.logged("WARN", "log"))


def test_each_allocation_of_a_line_is_refused(snapd, _):
    """The line is there, or it is counted as lost."""
    losses = 0
    for number in itertools.count(1):
        memory = Memory(snapd, number)
        with (
            Server(snapd, *fresh(snapd, 1), scanners=1, env=memory.env, more=("--log", "debug")) as server,
            server.connect() as last,
        ):
            with server.connect() as first:
                assert told(first, SCAN) == told(last, SCAN) == snapshot((0, b""))
                memory.runs_out()
            wait_until(lambda: ends_of(server) or not memory.wanting.exists())
            is_last = memory.wanting.exists()
            memory.is_there_again()
            last.close()
            comes_to(2, lambda: lost_lines(server) + ends_of(server))
            losses += lost_lines(server)
        if is_last:
            break
    assert 1 < losses < number, (number, losses)


def test_a_line_of_a_store_that_finds_no_memory_is_told_of(snapd, _):
    """The update is answered as ever."""
    disk, memory = Disk(snapd), Memory(snapd, "all")
    with Server(snapd, *fresh(snapd, 2), scanners=1, env=of_both(disk, memory), more=("--log", "error")) as server:
        with server.connect() as stream:
            assert told(stream, update(0, 1, b"a")) == stored(1)
            disk.says("S0 write hold 0")
            stream.sendall(update(0, 2, b"b"))
            disk.wait_for_hold()
            memory.runs_out()
            disk.says(f"S0 sync fail {errno.EIO}", f"S1 sync fail {errno.EIO}")
            assert told(stream) in (refused(13, 1), CLOSED)
            memory.is_there_again()
        server.ask(update(1, 1, b"a"), refused(13, 0))
        comes_to((1, 1), lambda: (lost_lines(server), len(server.logged("ERROR", "store"))))


def test_all_addresses_are_warned_of(snapd, _):
    text = "whoever reaches this machine may read and update each segment"
    for address, wanted in (("0.0.0.0:0", [f"0.0.0.0:0: {text}"]), ("127.0.0.1:0", [])):
        with Server(snapd, *fresh(snapd, 1), address=address, connections=0) as server:
            server.end()
            assert server.logged("WARN", "accept") == wanted


def lost(name, segment, number, why):
    """What is logged of an update that could not be stored."""
    return (
        f"{name}: segment {segment}: update {number} failed: "
        "a restart shows whether it is stored, and the segment is fenced until then: "
        f"save what is served before that, by snapd dump ADDR: {why}"
    )


def test_a_store_that_fails_is_logged(snapd, _):
    """Once, as an error, with the file and the system's reason; what the fence refuses later is no news."""
    disk = Disk(snapd)
    for call, why in (("write", errno.ENOSPC), ("write", errno.EIO), ("sync", errno.EIO), ("sync", errno.ENOSPC)):
        files = fresh(snapd, 2)
        with Server(snapd, *files, env=disk.env, more=("--log", "error")) as server:
            disk.says(f"S1 {call} fail {why}")
            server.ask(update(1, 1, b"a"), refused(13, 0))
            server.ask(update(1, 1, b"a") * 2, refused(6, 0) * 2)
            disk.says()
            server.ask(update(0, 1, b"a"), stored(1))
            wanted = [lost(files[1], 1, 1, f"{call}: {os.strerror(why)} (os error {why})")]
            comes_to(wanted, lambda: server.logged("ERROR", "store"))


def test_a_file_that_is_gone_is_logged(snapd, _):
    files = fresh(snapd, 2)
    with Server(snapd, *files) as server:
        server.ask(update(0, 1, b"a"), stored(1))
        snapd.file(files[0]).unlink()
        server.ask(update(0, 2, b"b"), refused(13, 1))
        wanted = [lost(files[0], 0, 2, "sync: its path doesn't name it any more: it was moved, removed or replaced")]
        comes_to(wanted, lambda: server.logged("ERROR", "store"))


def limited(snapd, words):
    """Runs the program where files may have ten blocks of 512 bytes."""
    line = f'ulimit -f 10 && exec "$0" {words}'
    return subprocess.run(
        ["sh", "-c", line, snapd.path], cwd=snapd.folder, capture_output=True, text=True, timeout=PATIENCE
    )


def test_files_may_not_be_as_long_as_a_segment(snapd, _):
    """The system would end the program at its first write, a server with all its segments."""
    fresh(snapd, 1)
    before = snapd.file("S0").read_bytes()
    text = "snapd: files may have 5120 bytes here, and a segment file has 28672: raise the limit (ulimit -f)\n"
    for words in ("format new --index 0 --count 1", "put S0 --index 0 --count 1", "serve 127.0.0.1:0 S0"):
        run = limited(snapd, words)
        assert (run.returncode, run.stderr) == (1, text), run
    assert snapd.file("S0").read_bytes() == before and not snapd.file("new").exists()
    assert limited(snapd, "check S0").returncode == 0
