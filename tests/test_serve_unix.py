"""`snapd serve unix:PATH`: which users may connect, which file it makes, replaces, removes and leaves alone; several
addresses of one server; and `snapd call unix:PATH`."""

import array
import contextlib
import fcntl
import itertools
import os
import pathlib
import resource
import shutil
import signal
import socket
import stat
import subprocess
import threading
import time

import serving
from clients import BOTH, ask
from preload import library
from program import Program, Skipped
from serving import FRESH, LOOPBACK, SCAN, at_socket, entries_of, fresh, free_port, received, reply, segments, snapshot
from test_load_folders import for_all
from test_serve_memory import NO_THREAD
from test_serve_sockets import STARTS, Sockets
from waiting import PATIENCE, comes_to, wait_until

ADDRESS = "unix:snapd.sock"
EMPTY = "segment 0 number 0 value -\n"
ALIVE = "another process listens there: end it, or give another path"
NO_SOCKET = "it is there, and no socket: move it away, or give another path"
FOREIGN = "a socket of another user is there: give another path, or have its owner end what listens there and remove it"
MASKED = ("this process's umask takes bits of its mode, and others may change its folder: "
          "start it under umask 0, or give a path in a folder of its own")
NOBODY = 65_534
# What a process says that may not open a socket.
MAY_CONNECT = """
import os, socket, sys
os.setgroups([]); os.setgid(65534); os.setuid(65534)
stream = socket.socket(socket.AF_UNIX)
try:
    stream.connect(sys.argv[1])
except OSError as error:
    sys.exit(f"{error.errno}")
"""


class AtSocket(serving.AtSocket):
    """The same at `ADDRESS`, where nothing else is said."""

    def __init__(self, snapd, *files, address=ADDRESS, **others):
        super().__init__(snapd, *files, address=address, **others)


@contextlib.contextmanager
def folder_of(snapd):
    """Works in the folder of a test, since a path of a socket is short."""
    before = os.getcwd()
    os.chdir(snapd.folder)
    try:
        yield
    finally:
        os.chdir(before)


def mode_of(path):
    return stat.S_IMODE(os.lstat(path).st_mode)


def refused(run, address, why):
    """The start came as far as its report, and says why it ended, in one line that names the address."""
    assert run.status == 1 and b"listening" not in run.output, run
    assert run.errors == f"snapd: {address}: can't listen there: {why}\n", run


def asks(path):
    with at_socket(path) as stream:
        stream.sendall(SCAN)
        return entries_of(reply(stream))


# ---- one socket ----

def test_a_socket_is_served_and_called(snapd, _):
    with AtSocket(snapd, *fresh(snapd, 1), connections=7) as server:
        assert server.address == ADDRESS and mode_of(server.path) == 0o600
        snapd("call", ADDRESS, "put", 0, stdin="hi").gave(0, "stored 1\n")
        snapd("call", ADDRESS, "get", 0).gave(0, "hi")
        snapd("call", ADDRESS, "scan", "--text", "--timeout", 5, "--tries", 3).gave(0, 'segment 0 number 1 text "hi"\n')
        snapd("call", ADDRESS, "update", 0, 2, "-").gave(0, "stored 2\n")
        snapd("call", ADDRESS, "health", "--timeout", 5).gave(0, "healthy\n")
        snapd("call", ADDRESS, "put", 3, "--value", "x").refused(2, "NoSegment 1")
        run = server.end()
        assert (run.status, run.output) == (0, b"served 7\n"), run
        assert not os.path.lexists(server.path)


def test_the_clients_ask_at_a_socket(snapd, _):
    """Both in Python, and the one in C."""
    with AtSocket(snapd, *fresh(snapd, 2)) as server:
        for start, make in zip((0, 2), BOTH):
            with make(f"unix:{server.path}") as client:
                mine = client.segment(0)
                assert mine.put(b"yo") == start + 1 and mine.put(b"!") == start + 2 and mine.get() == b"!"
        assert ask(f"unix:{server.path}", "put", 1, "yo") == (0, "stored 1\n", "")
        snapd("call", ADDRESS, "scan", "--text").gave(0, 'segment 0 number 4 text "!"\nsegment 1 number 1 text "yo"\n')


def test_a_folder_is_served_at_a_socket(snapd, _):
    assert snapd("init", "board", "--count", 2).status == 0
    with AtSocket(snapd, more=("--dir", "board"), address="unix:board/at") as server:
        snapd("call", "unix:board/at", "scan").gave(0, EMPTY + EMPTY.replace("t 0", "t 1"))
        assert mode_of(server.path) == 0o600


def test_each_mode_is_what_the_file_gets(snapd, _):
    """Whatever the mask of the process is."""
    files = fresh(snapd, 1)
    for mode, wanted in (("0660", 0o660), ("600", 0o600), ("0777", 0o777), ("0", 0), ("000666", 0o666)):
        for mask in ("0", "077", "777"):
            before = ("sh", "-c", f'umask {mask} && exec "$@"', "sh")
            with AtSocket(snapd, *files, more=("--socket-mode", mode), before=before) as server:
                assert mode_of(server.path) == wanted, (mode, mask)


def masked(mask):
    """Starts a program under this mask."""
    return ("sh", "-c", f'umask {mask} && exec "$@"', "sh")


def test_no_mode_is_given_back_where_others_could_put_a_link(snapd, _):
    """A path that another user can change may be a link by then, and a file's mode would be set by mistake."""
    files, where, mode = fresh(snapd, 1), snapd.file(folder(snapd, "shared")), ("--socket-mode", "0660")
    for bits in (0o777, 0o775, 0o1777, 0o1775, 0o755, 0o711):
        os.chmod(where, bits)
        is_kept = bits & 0o022 == 0 or bits & 0o1000 != 0
        for mask in ("077", "0"):
            if is_kept or mask == "0":
                with AtSocket(snapd, *files, address="unix:shared/a", more=mode, before=masked(mask)) as server:
                    assert mode_of(server.path) == 0o660, (oct(bits), mask)
                os.unlink(server.path)
                continue
            words = (*masked(mask), snapd.path, "serve", "unix:shared/a", *files, *mode, "--connections", "0")
            run = subprocess.run(words, cwd=snapd.folder, capture_output=True, text=True, timeout=PATIENCE)
            assert run.returncode == 1 and "listening" not in run.stdout, run
            assert run.stderr == f"snapd: unix:shared/a: can't listen there: {MASKED}\n", run
            assert os.listdir(where) == [], oct(bits)
    if os.geteuid() == 0:
        # The owner of a folder can change it, whatever its mode.
        for owner in (NOBODY, 0):
            os.chown(where, owner, -1)
            run = subprocess.run(
                (*masked("077"), snapd.path, "serve", "unix:shared/a", *files, *mode, "--connections", "0"),
                cwd=snapd.folder, capture_output=True, text=True, timeout=PATIENCE,
            )
            assert (run.returncode, MASKED in run.stderr) == ((0, False) if owner == 0 else (1, True)), run


def as_nobody(snapd, name):
    """The number of the error with which another user fails to connect, or None."""
    words = ["python3", "-c", MAY_CONNECT, name]
    run = subprocess.run(words, cwd=snapd.folder, capture_output=True, text=True, timeout=PATIENCE)
    return int(run.stderr) if run.returncode else None


def test_the_mode_says_who_may_connect(snapd, _):
    if os.geteuid() != 0:
        raise Skipped("it takes root to be another user")
    os.chmod(snapd.folder, 0o755)
    files = fresh(snapd, 1)
    for mode, wanted in (("0600", 13), ("0660", 13), ("0666", None), ("0606", None)):
        with AtSocket(snapd, *files, more=("--socket-mode", mode)) as server:
            assert as_nobody(snapd, "snapd.sock") == wanted, mode
            assert asks(server.path) == [(0, b"")]


def test_nobody_connects_before_the_mode_is_set(snapd, _):
    """Another user tries all the time, while servers start under a mask that would let everybody in."""
    if os.geteuid() != 0:
        raise Skipped("it takes root to be another user")
    os.chmod(snapd.folder, 0o755)
    tries = (MAY_CONNECT.partition("stream =")[0] + "print(flush=True)\n"
             "while True:\n    try:\n        socket.socket(socket.AF_UNIX).connect(sys.argv[1]); sys.exit('it may')\n"
             "    except (FileNotFoundError, ConnectionRefusedError, PermissionError):\n        pass\n")
    words = ["python3", "-c", tries, "snapd.sock"]
    child = subprocess.Popen(words, cwd=snapd.folder, stdout=subprocess.PIPE, stderr=subprocess.PIPE)
    try:
        child.stdout.readline()
        for _ in range(30):
            with AtSocket(snapd, *segments(snapd, FRESH), before=("sh", "-c", 'umask 0 && exec "$@"', "sh")):
                assert child.poll() is None, child.stderr.read()
        assert child.poll() is None, child.stderr.read()
    finally:
        child.kill()
        child.communicate()


def test_paths_that_no_socket_has(snapd, _):
    said = "an address of a Unix socket is unix:PATH, and the path is missing: give for example unix:snapd.sock"
    long = "a" * 108
    too_long = (
        "the path of a Unix socket has at most 107 bytes, and this one has 108: "
        "give a shorter one, from the folder where it is used"
    )
    for words in (("serve", "{}", "missing"), ("serve", LOOPBACK, "--listen", "{}", "missing"), ("call", "{}", "scan")):
        for path, why in (("", said), (long, too_long)):
            address = f"unix:{path}"
            run = snapd(*(address if it == "{}" else it for it in words))
            run.gave(1, errors=f"snapd: {address}: {why}\n")


def test_the_longest_path(snapd, _):
    name = "b" * 107
    with folder_of(snapd), AtSocket(snapd, *fresh(snapd, 1), address=f"unix:{name}"):
        snapd("call", f"unix:{name}", "scan").gave(0, EMPTY)
        assert asks(name) == [(0, b"")]


def test_a_folder_that_is_not_there(snapd, _):
    run = snapd("serve", "unix:none/a", *fresh(snapd, 1))
    refused(
        run, "unix:none/a",
        "No such file or directory (os error 2): give a path in a folder where this user may make files",
    )


# ---- what is at the path already ----

def test_what_a_killed_server_left_is_replaced(snapd, _):
    files = fresh(snapd, 1)
    for number in range(1, 4):
        with AtSocket(snapd, *files) as server:
            before = os.lstat(server.path).st_ino
            snapd("call", ADDRESS, "put", 0, "--value", str(number)).gave(0, f"stored {number}\n")
        # It is there, and callers are refused.
        assert os.lstat(server.path).st_ino == before
        snapd("call", ADDRESS, "scan").failed_with(1, ADDRESS)
    with AtSocket(snapd, *files):
        snapd("call", ADDRESS, "get", 0).gave(0, "3")


def test_a_socket_that_somebody_has_is_left(snapd, _):
    """And no connection of its server is used up."""
    with AtSocket(snapd, *segments(snapd, FRESH), connections=1, more=("--log", "debug")) as server:
        other = segments(snapd, FRESH, folder=folder(snapd, "other"))
        for _ in range(3):
            refused(snapd("serve", ADDRESS, *other), ADDRESS, ALIVE)
        assert not server.logged("DEBUG") and asks(server.path) == [(0, b"")]
        assert server.end().output == b"served 1\n" and server.logged("DEBUG") == ["unix closed"]


def test_a_socket_of_another_user_is_left(snapd, _):
    """It may be another user's server, which can't be asked; or what one left that this user may not remove."""
    program = for_all(snapd)
    where = snapd.file(folder(snapd, "shared"))
    os.chmod(where, 0o1777)
    other = fresh(snapd, 1, folder=folder(snapd, "other"))
    os.chown(snapd.file(other[0]), NOBODY, NOBODY)
    become = "import os, sys; os.setgroups([]); os.setgid(65534); os.setuid(65534); os.execv(sys.argv[1], sys.argv[1:])"
    words = ("python3", "-c", become, str(program.path), "serve", "unix:shared/a", *other)

    def is_left(number):
        run = subprocess.run(words, cwd=snapd.folder, capture_output=True, text=True, timeout=PATIENCE)
        assert run.returncode == 1 and run.stderr == f"snapd: unix:shared/a: can't listen there: {FOREIGN}\n", run
        assert os.lstat(where / "a").st_ino == number

    with AtSocket(snapd, *fresh(snapd, 1), address="unix:shared/a") as server:
        is_left(os.lstat(server.path).st_ino)
        assert asks(server.path) == [(0, b"")]
    # Its server has ended. Everybody may call it now, and is refused.
    is_left(os.lstat(server.path).st_ino)
    os.chmod(server.path, 0o666)
    is_left(os.lstat(server.path).st_ino)


def folder(snapd, name):
    (snapd.folder / name).mkdir()
    return name


def test_sockets_of_other_programs(snapd, _):
    """One that listens, one that doesn't yet, and one for messages."""
    files = fresh(snapd, 1)
    with folder_of(snapd):
        for kind, listens in ((socket.SOCK_STREAM, True), (socket.SOCK_STREAM, False), (socket.SOCK_DGRAM, False),
                              (socket.SOCK_SEQPACKET, True)):
            with socket.socket(socket.AF_UNIX, kind) as other:
                other.bind("snapd.sock")
                if listens:
                    other.listen()
                before = os.lstat("snapd.sock")
                refused(snapd("serve", ADDRESS, *files), ADDRESS, ALIVE)
                assert os.lstat("snapd.sock").st_ino == before.st_ino
            with AtSocket(snapd, *files):
                pass
            os.unlink("snapd.sock")


def test_anything_else_at_the_path_is_left(snapd, _):
    files = fresh(snapd, 1)
    with folder_of(snapd), AtSocket(snapd, *files, address="unix:alive"):
        other = segments(snapd, FRESH, folder=folder(snapd, "other"))
        pathlib.Path("file").write_bytes(b"kept")
        os.mkdir("folder")
        os.symlink("alive", "link")
        os.symlink("nothing", "loose")
        os.mkfifo("pipe")
        with socket.socket(socket.AF_UNIX) as dead:
            dead.bind("dead")
        os.symlink("dead", "to_dead")
        for name in ("file", "folder", "link", "loose", "pipe", "to_dead", other[0]):
            before = os.lstat(name)
            refused(snapd("serve", f"unix:{name}", *other), f"unix:{name}", NO_SOCKET)
            after = os.lstat(name)
            assert (
                (after.st_ino, after.st_mode, after.st_mtime_ns) == (before.st_ino, before.st_mode, before.st_mtime_ns)
            ), name
        assert pathlib.Path("file").read_bytes() == b"kept" and os.path.lexists("dead")
        assert os.readlink("link") == "alive" and asks("alive") == [(0, b"")]


def test_a_link_is_called(snapd, _):
    """A call may use one."""
    with AtSocket(snapd, *fresh(snapd, 1)):
        os.symlink("snapd.sock", snapd.folder / "link")
        snapd("call", "unix:link", "scan").gave(0, EMPTY)


def test_no_server_removes_the_socket_of_another(snapd, _):
    """A server whose file was taken away ends in order, and the file that is there then is another's."""
    with AtSocket(snapd, *segments(snapd, FRESH), connections=1, more=("--listen", LOOPBACK)) as first:
        line = first.printed(1)[0]
        os.unlink(first.path)
        with AtSocket(snapd, *segments(snapd, FRESH, folder=folder(snapd, "other"))) as second:
            snapd("call", line.removeprefix("listening "), "scan").gave(0, EMPTY)
            assert first.end().status == 0
            assert asks(second.path) == [(0, b"")]


def test_two_servers_start_at_one_path_at_once(snapd, _):
    """Whatever was left there, one has it and the other says so; and no third thing."""
    files = [segments(snapd, FRESH, folder=folder(snapd, name)) for name in ("one", "two", "three")]
    for round_ in range(12):
        if round_ % 2:
            with folder_of(snapd), socket.socket(socket.AF_UNIX) as left:
                left.bind("snapd.sock")
        processes = [
            subprocess.Popen(
                [snapd.path, "serve", ADDRESS, *its], cwd=snapd.folder, stdout=subprocess.PIPE, stderr=subprocess.PIPE
            )
            for its in files
        ]
        try:
            wait_until(lambda: sum(it.poll() is None for it in processes) == 1, "the end of all but one")
            running = next(it for it in processes if it.poll() is None)
            while not running.stdout.readline().startswith(b"listening"):
                pass
            assert asks_in(snapd) == [(0, b"")]
            for ended in processes:
                if ended is not running:
                    assert ended.returncode == 1 and ALIVE in ended.stderr.read().decode()
        finally:
            for it in processes:
                it.kill()
                it.communicate()
        os.unlink(snapd.folder / "snapd.sock")


def asks_in(snapd):
    with folder_of(snapd):
        return asks("snapd.sock")


def test_a_folder_that_is_locked(snapd, _):
    """A process that holds its lock for long keeps a server from it; one that releases it within a second doesn't."""
    files = fresh(snapd, 1)
    held = os.open(snapd.folder, os.O_RDONLY)
    try:
        fcntl.flock(held, fcntl.LOCK_EX)
        refused(snapd("serve", ADDRESS, *files), ADDRESS,
                "another process has locked its folder: give a path in a folder of this server's own")
        threading.Timer(0.2, lambda: fcntl.flock(held, fcntl.LOCK_UN)).start()
        with AtSocket(snapd, *files):
            # Its own lock is released.
            fcntl.flock(held, fcntl.LOCK_EX | fcntl.LOCK_NB)
    finally:
        os.close(held)


# ---- several addresses ----

def test_several_addresses_in_order(snapd, _):
    more = ("--listen", LOOPBACK, "--listen", "unix:b", "--listen", "[::1]:0")
    with AtSocket(snapd, *fresh(snapd, 1), address="unix:a", connections=8, more=more) as server:
        lines = ["listening unix:a", *server.printed(3)]
        assert lines[0] == "listening unix:a" and lines[2] == "listening unix:b", lines
        assert lines[1].startswith("listening 127.0.0.1:") and lines[3].startswith("listening [::1]:"), lines
        for number, line in enumerate(lines * 2, 1):
            snapd("call", line.removeprefix("listening "), "update", 0, number, "00").gave(0, f"stored {number}\n")
        run = server.end()
        assert (run.status, run.output.decode().splitlines()) == (0, [*lines[1:], "served 8"]), run
        assert not any(os.path.lexists(snapd.folder / name) for name in "ab")


def test_none_is_bound_where_one_cannot_be(snapd, _):
    files = fresh(snapd, 1)
    port = free_port()
    with socket.create_server(("127.0.0.1", 0)) as taken:
        there = f"127.0.0.1:{taken.getsockname()[1]}"
        busy = "Address already in use (os error 98): give an address of this machine whose port is free"
        for words in ((f"127.0.0.1:{port}", "unix:a", there), (there, "unix:a"), ("unix:a", "unix:b", there)):
            more = [word for it in words[1:] for word in ("--listen", it)]
            refused(snapd("serve", words[0], *files, *more), there, busy)
            assert not any(os.path.lexists(snapd.folder / name) for name in "ab")
    no_port = "invalid port value: give HOST:PORT with a port from 0 to 65535"
    refused(snapd("serve", "127.0.0.1:99999", *files), "127.0.0.1:99999", no_port)
    refused(snapd("serve", "unix:a", *files, "--listen", "unix:a"), "unix:a", ALIVE)
    assert not os.path.lexists(snapd.folder / "a")
    with socket.create_server(("127.0.0.1", port)):
        pass


def test_a_port_that_a_user_may_not_have(snapd, _):
    """Neither for clients nor for HTTP, where the system keeps the low ports for root."""
    low = pathlib.Path("/proc/sys/net/ipv4/ip_unprivileged_port_start")
    if os.geteuid() != 0 or int(low.read_text()) < 2:
        raise Skipped("it takes root to be another user, and low ports that this one may not have")
    files, nobody = fresh(snapd, 1), {"user": 65_534, "group": 65_534, "extra_groups": []}
    os.chmod(snapd.folder, 0o755)
    os.chown(snapd.file(files[0]), 65_534, 65_534)
    shutil.copy(snapd.path, snapd.file("program"))
    program = Program(snapd.file("program"), snapd.folder)
    why = "Permission denied (os error 13): give a port from 1024 on, or let this user listen below it"
    refused(program("serve", "127.0.0.1:1", *files, **nobody), "127.0.0.1:1", why)
    run = program("serve", "127.0.0.1:0", *files, "--http", "127.0.0.1:1", **nobody)
    run.gave(1, errors=f"snapd: 127.0.0.1:1: can't listen there for HTTP: {why}\n")


# Two sockets and two ports.
MIXED = (ADDRESS, "--listen", LOOPBACK, "--listen", "unix:b", "--listen", LOOPBACK)


def left_over(snapd):
    return [name for name in ("snapd.sock", "b") if os.path.lexists(snapd.folder / name)]


def test_each_call_of_a_start_fails(snapd, _):
    """It says in one line that the system refused. No socket's file is left, and the segments stay as they are."""
    files = segments(snapd, FRESH, [(0, b""), (1, b"hi")])
    before = [snapd.file(name).read_bytes() for name in files]
    for call, why in STARTS.items():
        for number in itertools.count(1):
            sockets = Sockets(snapd, call, number, why)
            sockets.fail()
            run = snapd("serve", *MIXED, *files, "--scanners", 2, "--connections", 0, "--log", "error", env=sockets.env)
            came = sockets.has_failed()
            # Some options of a socket may be refused, and when it closes those in the queue may wait for it.
            if not (call in ("setsockopt", "ioctl") and run.status == 0):
                assert run.status == (1 if came else 0), (call, number, run)
                assert run.errors.startswith("snapd: ") == came and run.errors.count("\n") == came, (call, number, run)
                assert (b"listening" in run.output) != came, (call, number, run)
            assert (
                left_over(snapd) == [] and before == [snapd.file(name).read_bytes() for name in files]
            ), (call, number)
            if not came:
                break
        assert number > 1, call


def test_each_allocation_of_a_start_is_refused(snapd, _):
    """It serves, or complains that memory ran out, or that it got no thread, and nothing else; and no socket's file is
    left."""
    words = ("serve", *MIXED, *fresh(snapd, 1), "--connections", 0, "--log", "error")
    env, counted = {"LD_PRELOAD": library("allocations")}, snapd.file("count")
    snapd(*words, env={**env, "ALLOCATIONS_COUNT": str(counted)})
    refusals = 0
    for number in range(1, int(counted.read_text()) + 1):
        run = snapd(*words, env={**env, "ALLOCATIONS_REFUSE": str(number)})
        wanted = (0, "") if b"served 0" in run.output else (3, "snapd: refused 8 NoMemory\n")
        is_thread = run.status == 1 and run.errors.endswith(NO_THREAD)
        assert (run.status, run.errors) == wanted or is_thread, (number, run)
        assert left_over(snapd) == [], number
        refusals += run.status == 3
    assert refusals > 50, refusals


def test_sixteen_addresses_and_no_more(snapd, _):
    files = fresh(snapd, 1)
    more = [word for number in range(15) for word in ("--listen", f"unix:s{number}")]
    with AtSocket(snapd, *files, more=more) as server:
        assert server.printed(15) == [f"listening unix:s{number}" for number in range(15)]
        for number in range(15):
            snapd("call", f"unix:s{number}", "scan").gave(0, EMPTY)
    run = snapd("serve", ADDRESS, *files, *more, "--listen", LOOPBACK)
    assert (
        run.status == 2 and run.errors.startswith("snapd: error: the number of addresses 17 is not from 1 to 16\n")
    ), run


def test_each_address_that_everybody_reaches_is_warned_of(snapd, _):
    more = ("--listen", "0.0.0.0:0", "--listen", LOOPBACK, "--listen", "[::]:0")
    with AtSocket(snapd, *fresh(snapd, 1), more=more) as server:
        server.printed(3)
        said = "whoever reaches this machine may read and update each segment"
        comes_to([f"0.0.0.0:0: {said}", f"[::]:0: {said}"], lambda: server.logged("WARN", "accept"))


def both(snapd, server):
    """Connects by the socket, and by TCP at the server's second address."""
    host, _, port = server.printed(1)[0].removeprefix("listening ").rpartition(":")
    return server.connect, lambda: socket.create_connection((host, int(port)), timeout=PATIENCE)


def test_the_most_connections_count_over_all_addresses(snapd, _):
    more = ("--listen", LOOPBACK, "--clients-max", 2)
    with AtSocket(snapd, *fresh(snapd, 1), more=more) as server:
        unix, tcp = both(snapd, server)
        with unix() as first, tcp() as second:
            for stream in (first, second):
                stream.sendall(SCAN)
                reply(stream)
            for connect in (unix, tcp):
                with connect() as third:
                    third.sendall(SCAN)
                    third.settimeout(0.3)
                    with contextlib.suppress(TimeoutError):
                        assert not third.recv(1)
            assert server.logged("WARN", "accept") == [
                "2 connections are open, and there is no room for more: callers wait"
            ]
            with tcp() as third:
                third.sendall(SCAN)
                first.close()
                assert entries_of(reply(third)) == [(0, b"")]


def test_no_descriptor_is_wanting(snapd, _):
    """With sixteen addresses of both kinds, and few descriptors: callers without room wait, and nothing fails."""
    more = [word for number in range(7) for word in ("--listen", f"unix:s{number}", "--listen", LOOPBACK)]
    with (
        AtSocket(snapd, *fresh(snapd, 2), more=more, descriptors=60, scanners=2) as server,
        contextlib.ExitStack() as opened,
    ):
        server.printed(14)
        for _ in range(60):
            opened.enter_context(server.connect())
        wait_until(lambda: server.logged("WARN", "accept"))
        assert "callers wait" in server.logged("WARN", "accept")[0] and server.descriptors() <= 60
        opened.close()
        assert asks(server.path) == [(0, b"")] * 2


def test_a_flood_at_one_address_starves_no_other(snapd, _):
    with AtSocket(snapd, *fresh(snapd, 1), more=("--listen", LOOPBACK)) as server:
        unix, tcp = both(snapd, server)
        over = threading.Event()

        def flood():
            while not over.is_set():
                with contextlib.suppress(OSError), unix():
                    pass

        threads = [threading.Thread(target=flood) for _ in range(4)]
        for thread in threads:
            thread.start()
        try:
            for _ in range(200):
                with tcp() as stream:
                    stream.sendall(SCAN)
                    assert entries_of(reply(stream)) == [(0, b"")]
        finally:
            over.set()
            for thread in threads:
                thread.join()
        assert asks(server.path) == [(0, b"")]


def test_a_server_without_callers_sleeps(snapd, _):
    """At addresses of both kinds: without callers it takes no time of a processor, also after callers at each."""
    with AtSocket(snapd, *fresh(snapd, 1), more=("--listen", LOOPBACK)) as server:
        unix, tcp = both(snapd, server)
        for connect in (unix, tcp, tcp, unix):
            with connect() as stream:
                stream.sendall(SCAN)
                assert entries_of(reply(stream)) == [(0, b"")]
        time.sleep(0.2)
        before = processor_time(server)
        time.sleep(1)
        assert processor_time(server) - before < 0.2


def processor_time(server):
    fields = pathlib.Path(f"/proc/{server.process.pid}/stat").read_text().rpartition(")")[2].split()
    return (int(fields[11]) + int(fields[12])) / os.sysconf("SC_CLK_TCK")


def test_two_thousand_connections_over_both(snapd, _):
    soft, hard = resource.getrlimit(resource.RLIMIT_NOFILE)
    if hard != resource.RLIM_INFINITY and hard < 5_000:
        raise Skipped(f"a process may open {hard} files here")
    resource.setrlimit(resource.RLIMIT_NOFILE, (max(soft, 5_000), hard))
    try:
        with AtSocket(snapd, *fresh(snapd, 1), more=("--listen", LOOPBACK)) as server, contextlib.ExitStack() as opened:
            unix, tcp = both(snapd, server)
            streams = [opened.enter_context((unix, tcp)[number % 2]()) for number in range(2_000)]
            for stream in streams:
                stream.sendall(SCAN)
            for stream in streams:
                assert entries_of(reply(stream)) == [(0, b"")]
            assert len(server.notes()) == len(server.logged("INFO", "server")) == 1
    finally:
        resource.setrlimit(resource.RLIMIT_NOFILE, (soft, hard))


# ---- who connects ----

def test_who_waits_at_a_socket_that_closes_is_let_go(snapd, _):
    """While those that were taken are served on; and so it is at a port."""
    for address in (ADDRESS, LOOPBACK):
        server = AtSocket if address == ADDRESS else serving.Server
        with server(snapd, *segments(snapd, FRESH), address=address, connections=2, more=("--clients-max", 1)) as it:
            with contextlib.ExitStack() as opened:
                with it.connect() as first:
                    first.sendall(SCAN)
                    assert entries_of(reply(first)) == [(0, b"")]
                    second, *others = [opened.enter_context(it.connect()) for _ in range(20)]
                # The second is the last that is taken.
                for stream in others:
                    with contextlib.suppress(ConnectionResetError):
                        assert stream.recv(1) == b""
                second.sendall(SCAN)
                assert entries_of(reply(second)) == [(0, b"")]
            assert it.end().status == 0


def test_who_says_nothing_is_let_go_of(snapd, _):
    with AtSocket(snapd, *fresh(snapd, 1), more=("--idle", 1, "--log", "debug")) as server, server.connect() as silent:
        assert silent.recv(1) == b""
        comes_to(["unix let go of: it said nothing for too long"], lambda: server.logged("DEBUG", "connection"))
        assert asks(server.path) == [(0, b"")]


def test_a_descriptor_that_is_passed_along_is_not_kept(snapd, _):
    with AtSocket(snapd, *fresh(snapd, 1)) as server, server.connect() as stream:
        stream.sendall(SCAN)
        reply(stream)
        before = server.descriptors()
        for _ in range(100):
            reader, writer = os.pipe()
            stream.sendmsg([SCAN], [(socket.SOL_SOCKET, socket.SCM_RIGHTS, array.array("i", [writer] * 8))])
            os.close(writer)
            assert entries_of(reply(stream)) == [(0, b"")]
            # The other end is closed.
            assert os.read(reader, 1) == b""
            os.close(reader)
        assert server.descriptors() == before


def test_a_request_in_pieces_and_an_end_inside_one(snapd, _):
    with AtSocket(snapd, *fresh(snapd, 1), more=("--log", "debug")) as server:
        with server.connect() as stream:
            for byte in SCAN:
                stream.sendall(bytes([byte]))
                time.sleep(0.002)
            assert reply(stream)[0] == 0x82
            stream.sendall(SCAN[:3])
        comes_to(["unix ended inside a request"], lambda: server.logged("DEBUG", "connection"))
        with server.connect() as stream:
            stream.sendall(SCAN * 50)
            stream.shutdown(socket.SHUT_WR)
            wanted = snapshot((0, b"")) * 50
            assert received(stream, len(wanted) + 1) == wanted


def test_a_call_whose_server_is_stopped_ends_with_its_time(snapd, _):
    """Also if the queue of callers is full."""
    with AtSocket(snapd, *fresh(snapd, 1)) as server, contextlib.ExitStack() as opened:
        os.kill(server.process.pid, signal.SIGSTOP)
        said = f"snapd: {ADDRESS}: there was no answer within 1 s (--timeout)\n"
        assert snapd("call", ADDRESS, "scan", "--timeout", 1).errors.endswith(said)
        with folder_of(snapd), contextlib.suppress(BlockingIOError):
            for _ in range(6_000):
                stream = opened.enter_context(socket.socket(socket.AF_UNIX))
                stream.setblocking(False)
                stream.connect("snapd.sock")
        run = snapd("call", ADDRESS, "scan", "--timeout", 1)
        assert run.status == 1 and run.errors.endswith(said), run
        os.kill(server.process.pid, signal.SIGCONT)
        opened.close()
        snapd("call", ADDRESS, "scan", "--timeout", 30).gave(0, EMPTY)
