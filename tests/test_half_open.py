"""`snapd serve` and peers that vanish: their machine or its network fails, and send neither an end nor a reset. Each
holds a descriptor until the server closes it, by `--idle` or because it answers no keepalive probe."""

import ctypes
import socket
import struct

from preload import library
from program import Skipped
from serving import SCAN, Server, fresh, received, segments, snapshot, stored, update
from test_serve_disks import TWO, Disk
from waiting import comes_to

# Linux's number of the option by which a socket is given a filter of packets.
ATTACH_FILTER = 26
# The filter that lets no byte of any packet through: an instruction that returns 0.
NOTHING = struct.pack("HBBI", 0x06, 0, 0, 0)
EMPTY = snapshot((0, b""))


def vanish(stream):
    """From here on nothing reaches this peer and nothing answers for it, as if its machine had no power. It stays open,
    since the server would notice a close."""
    program = ctypes.create_string_buffer(NOTHING, len(NOTHING))
    try:
        stream.setsockopt(socket.SOL_SOCKET, ATTACH_FILTER, struct.pack("HP", 1, ctypes.addressof(program)))
    except OSError as why:
        raise Skipped(f"the system takes no filter of packets: {why}") from why


def answered(stream, wanted):
    stream.sendall(SCAN)
    return received(stream, len(wanted)) == wanted


def named(stream):
    """This peer's address, as the log has it."""
    return "{}:{}".format(*stream.getsockname())


def ends(server):
    """How connections have ended so far, by their peers' addresses."""
    return dict(line.split(" ", 1) for line in server.logged("DEBUG", "connection"))


def test_silent_peers_that_vanished_make_room(snapd, _):
    """One was idle, one was within a request, and one still waits for its reply. `--idle` closes them, and callers that
    wait for their room are answered."""
    with Server(snapd, *fresh(snapd, 1), more=("--idle", 1, "--clients-max", 3, "--log", "debug")) as server:
        gone = [server.connect() for _ in range(3)]
        assert all(answered(stream, EMPTY) for stream in gone)
        gone[1].sendall(SCAN[:3])
        comes_to(True, lambda: server.has_read(gone[1]))
        for stream in gone:
            vanish(stream)
        gone[2].sendall(SCAN)
        with server.connect() as late:
            assert answered(late, EMPTY)
            comes_to({named(it): "let go of: it said nothing for too long" for it in gone}, lambda: {
                peer: how for peer, how in ends(server).items() if peer != named(late)})
        assert server.process.poll() is None
        for stream in gone:
            stream.close()


def test_peers_that_vanished_are_found_gone(snapd, _):
    """While a disk hangs, too: peers with an update under way that vanished or closed give their descriptors back.
    Peers that are as silent but answer keepalive probes are kept, and all updates are stored. Here the probes come
    after a second and each second, and six go unanswered."""
    disk = Disk(snapd)
    env = disk.env | {"LD_PRELOAD": f"{disk.env['LD_PRELOAD']}:{library('keepalive')}"}
    # One worker, so that updates come to their segment in the order in which they are sent.
    with Server(snapd, *segments(snapd, TWO, TWO), scanners=1, env=env, more=("--log", "debug")) as server:
        disk.says("S0 sync hold 0")
        quiet, begun, vanished, closed, silent, waits = streams = [server.connect() for _ in range(6)]
        assert all(answered(stream, snapshot((1, b"hi"), (1, b"hi"))) for stream in streams)
        begun.sendall(SCAN[:3])
        for number, stream in enumerate((vanished, closed, waits), start=2):
            stream.sendall(update(0, number, b"%d" % number))
            comes_to(True, lambda: server.has_read(stream))
        disk.wait_for_hold()
        comes_to(True, lambda: server.has_read(begun))
        for stream in (quiet, begun, vanished):
            vanish(stream)
        # Its system answers for it as long as it waits for the server's end: a minute by default, and a second here.
        closed.setsockopt(socket.IPPROTO_TCP, socket.TCP_LINGER2, 1)
        where = named(closed)
        closed.close()
        comes_to(2, server.connections)
        read, under_way = "lost while it was read", "lost while an update was under way"
        comes_to(
            {named(quiet): read, named(begun): read, named(vanished): under_way, where: under_way}, lambda: ends(server)
        )
        assert answered(silent, snapshot((1, b"hi"), (1, b"hi")))
        disk.says()
        assert received(waits, 13) == stored(4)
        assert answered(silent, snapshot((4, b"4"), (1, b"hi")))
        for stream in (quiet, begun, vanished):
            stream.close()
