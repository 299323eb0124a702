"""Why a call makes no connection: each reason of the system is printed with its own advice."""

import errno
import os
import shutil
import socket

from program import Program, Skipped
from serving import AtSocket, Server, free_port, fresh
from test_serve_sockets import Sockets

WAIT = "start snapd serve there, or wait for it with --wait"
NONE = "no connection to the server could be made"
FIREWALL = "a firewall or a policy of this machine forbids it"
NETWORK = "check the address, and the network on the way"
DESCRIPTORS = "raise the limit of open files (ulimit -n, or fs.file-max)"
MEMORY = "the system has no memory for a connection: free some"
PATH = "check the path"
RIGHT = (
    "this user may not use the socket, or not look into its folder: "
    "call as the one that serves, or give that one's group the right by snapd serve --socket-mode 0660"
)

# What `connect` and `socket` of a port may say, and what to do.
OF_A_PORT = {
    errno.ECONNREFUSED: f"nobody listens there: {WAIT}",
    errno.EACCES: FIREWALL,
    errno.EPERM: FIREWALL,
    errno.ENETUNREACH: NETWORK,
    errno.EHOSTUNREACH: NETWORK,
    errno.ENETDOWN: NETWORK,
    errno.ETIMEDOUT: "nothing answers there: check the address, and the firewalls on the way",
    errno.EADDRNOTAVAIL: "this machine has no address or no port left to call from",
    errno.EAFNOSUPPORT: "check the address",
    errno.EINVAL: "check the address",
    errno.EMFILE: DESCRIPTORS,
    errno.ENFILE: DESCRIPTORS,
    errno.ENOMEM: MEMORY,
    errno.ENOBUFS: MEMORY,
    errno.ECONNRESET: None,
}
# The same of a socket.
OF_A_SOCKET = {
    errno.ENOENT: f"there is no socket: {WAIT}",
    errno.ECONNREFUSED: f"nobody serves at that path: {WAIT}",
    errno.EACCES: RIGHT,
    errno.EPERM: RIGHT,
    errno.ENOTDIR: PATH,
    errno.ELOOP: PATH,
    errno.ENAMETOOLONG: PATH,
    errno.EPROTOTYPE: f"the socket is another program's: {PATH}",
    errno.EMFILE: DESCRIPTORS,
    errno.ENOMEM: MEMORY,
}


def told(address, code, remedy):
    """The lines of a connection that can't be made for this reason."""
    why = f"{os.strerror(code)} (os error {code})"
    return f"snapd: {address}: {NONE}\nsnapd: {address}: {why}{'' if remedy is None else f': {remedy}'}\n"


def test_each_reason_of_a_port(snapd, _):
    with Server(snapd, *fresh(snapd, 1)) as server:
        for code, remedy in OF_A_PORT.items():
            for more in ([], ["--timeout", 60]):
                sockets = Sockets(snapd, "connect", 1, code)
                sockets.fail()
                snapd("call", server.address, "scan", *more, env=sockets.env).gave(
                    1, errors=told(server.address, code, remedy)
                )
                assert sockets.has_failed(), (code, more)
        for code in (errno.EMFILE, errno.EAFNOSUPPORT):
            sockets = Sockets(snapd, "socket", 1, code)
            sockets.fail()
            snapd("call", server.address, "scan", env=sockets.env).gave(
                1, errors=told(server.address, code, OF_A_PORT[code])
            )


def test_each_reason_of_a_socket(snapd, _):
    with AtSocket(snapd, *fresh(snapd, 1), address="unix:at.sock") as server:
        for code, remedy in OF_A_SOCKET.items():
            for more in ([], ["--timeout", 60]):
                sockets = Sockets(snapd, "connect", 1, code)
                sockets.fail()
                snapd("call", server.address, "scan", *more, env=sockets.env).gave(
                    1, errors=told(server.address, code, remedy)
                )
                assert sockets.has_failed(), (code, more)


def test_reasons_as_they_come(snapd, _):
    """A free port, and paths where no server listens."""
    nobody = f"127.0.0.1:{free_port()}"
    with AtSocket(snapd, *fresh(snapd, 1), address="unix:left.sock"):
        pass
    snapd.file("file").write_bytes(b"")
    snapd.file("loop").symlink_to("loop")
    with socket.socket(socket.AF_UNIX, socket.SOCK_DGRAM) as other:
        other.bind(str(snapd.file("other.sock")))
        for address, code in (
            (nobody, errno.ECONNREFUSED), ("unix:none.sock", errno.ENOENT), ("unix:left.sock", errno.ECONNREFUSED),
            ("unix:file", errno.ECONNREFUSED), ("unix:file/at", errno.ENOTDIR), ("unix:loop", errno.ELOOP),
            ("unix:other.sock", errno.EPROTOTYPE),
        ):
            remedy = (OF_A_PORT if address == nobody else OF_A_SOCKET)[code]
            for more in ([], ["--timeout", 60], ["--tries", 2]):
                snapd("call", address, "scan", *more).gave(1, errors=told(address, code, remedy))
            snapd("dump", address).gave(1, errors=told(address, code, remedy))


def test_a_user_who_may_not(snapd, _):
    """Another user may neither use the socket nor read its folder."""
    if os.geteuid() != 0:
        raise Skipped("another user wants root")
    snapd.file("shut").mkdir(mode=0o700)
    os.chmod(snapd.folder, 0o755)
    shutil.copy(snapd.path, snapd.file("program"))
    program = Program(snapd.file("program"), snapd.folder)
    nobody = {"user": 65_534, "group": 65_534, "extra_groups": []}
    for address in ("unix:at.sock", "unix:shut/at.sock"):
        with AtSocket(snapd, *fresh(snapd, 1), address=address):
            snapd("call", address, "scan").gave(0, "segment 0 number 0 value -\n")
            program("call", address, "scan", **nobody).gave(1, errors=told(address, errno.EACCES, RIGHT))
            program("watch", address, **nobody).failed_with(1, f"{address}: {os.strerror(errno.EACCES)} ", RIGHT)
    with AtSocket(snapd, *fresh(snapd, 1), address="unix:open.sock", more=["--socket-mode", "0666"]):
        program("call", "unix:open.sock", "scan", **nobody).gave(0, "segment 0 number 0 value -\n")


def test_a_reason_is_that_of_the_last_connection(snapd, _):
    """A connection that was made has none: only a later failure is printed."""
    with Server(snapd, *fresh(snapd, 1)) as server:
        sockets = Sockets(snapd, "connect", 1, errno.ECONNREFUSED)
        sockets.fail()
        with open("/dev/full", "wb") as full:
            run = snapd("call", server.address, "scan", "--tries", 2, env=sockets.env, stdout=full)
        assert sockets.has_failed()
        assert run.status == 1 and run.errors == "snapd: standard output: No space left on device (os error 28)\n", run
        sockets.fail()
        snapd("call", server.address, "scan", "--tries", 2, env=sockets.env).gave(0, "segment 0 number 0 value -\n")


def test_the_reason_of_a_read_or_a_write(snapd, _):
    """It is printed after the complaint, and needs no advice of its own."""
    with Server(snapd, *fresh(snapd, 1)) as server:
        again = "send it again, since an update is stored once"
        for call, code, fault in (
            ("recv", errno.ECONNRESET, "reading the reply failed: whether the request was done isn't known"),
            ("send", errno.EPIPE, "the request couldn't be sent whole"),
        ):
            sockets = Sockets(snapd, call, 1, code)
            sockets.fail()
            run = snapd("call", server.address, "scan", env=sockets.env)
            assert sockets.has_failed()
            why = f"{os.strerror(code)} (os error {code})"
            run.gave(1, errors=f"snapd: {server.address}: {fault}: {again}\nsnapd: {server.address}: {why}\n")


def test_a_put_says_how_to_put_again_and_why(snapd, _):
    with Server(snapd, *fresh(snapd, 1)) as server:
        # The second connection is the update's.
        sockets = Sockets(snapd, "connect", 2, errno.ECONNREFUSED)
        sockets.fail()
        run = snapd("call", server.address, "put", 0, "--value", "x", env=sockets.env)
        assert sockets.has_failed()
        again = "send it again with --after 0, since an update is stored once"
        refused = f"Connection refused (os error 111): {OF_A_PORT[errno.ECONNREFUSED]}"
        run.gave(1, errors=f"snapd: {server.address}: {NONE}: {again}\nsnapd: {server.address}: {refused}\n")
