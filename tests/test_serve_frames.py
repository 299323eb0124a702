"""What may come over a connection to `snapd serve`: frames in any pieces, frames that are none, peers that say or read
nothing, and many of them."""

import re
import resource
import selectors
import socket
import time

from program import Skipped
from serving import FRESH, MALFORMED, OVER_THE_LIMIT, SCAN, STATUS, TOO_LARGE, Server, entries_of, frame, fresh
from serving import received, refused, reply, reset, segments, snapshot, standings, stored, to_its_end, update
from clients import vectors
from waiting import PATIENCE, comes_to

HI = [(0, b""), (1, b"hi")]


def test_every_vector(snapd, _):
    """One after the other, all at once, and cut after each byte: the same replies."""
    rows = vectors()
    sent, wanted = (b"".join(part) for part in zip(*rows))
    with Server(snapd, *fresh(snapd, 2)) as server, server.connect() as stream:
        for request, answer in rows:
            stream.sendall(request)
            assert received(stream, len(answer)) == answer, request[:20].hex()
        assert to_its_end(stream) == b""
    with Server(snapd, *fresh(snapd, 2)) as server, server.connect() as stream:
        stream.sendall(sent)
        assert to_its_end(stream) == wanted
    with Server(snapd, *fresh(snapd, 2), scanners=2) as server:
        for cut in range(len(sent)):
            # The long update's value is all the same byte: some of its places are tried.
            if 100 < cut < len(sent) - 100 and cut % 61:
                continue
            with server.connect() as stream:
                stream.sendall(sent[:cut])
                time.sleep(0.001)
                stream.sendall(sent[cut:])
                # An update that is there already is answered again, so each round has the same replies.
                assert to_its_end(stream) == wanted, cut


def test_one_byte_at_a_time(snapd, _):
    sent = update(0, 1, b"hi") + SCAN + frame(b"") + frame(b"\x03\x00") + STATUS + update(0, 1, b"hi") + OVER_THE_LIMIT
    wanted = stored(1) + snapshot((1, b"hi")) + MALFORMED * 2 + standings((1, False)) + stored(1) + TOO_LARGE
    with Server(snapd, *fresh(snapd, 1)) as server, server.connect() as stream:
        for byte in sent:
            stream.sendall(bytes([byte]))
            time.sleep(0.0005)
        assert to_its_end(stream) == wanted


def test_replies_keep_the_order_of_their_requests(snapd, _):
    """Those that wait for a disk and those that wait for nothing, thousands of them in one write."""
    with Server(snapd, *fresh(snapd, 2), scanners=1) as server, server.connect() as stream:
        sent, wanted = [], []
        for number in range(1, 301):
            sent += [update(0, number, b"%d" % number), SCAN, frame(b"\x07"), update(1, number), update(2, 1), STATUS]
            wanted += [stored(number), snapshot((number, b"%d" % number), (number - 1, b"")), MALFORMED, stored(number),
                       refused(2, 2), standings((number, False), (number, False))]
        stream.sendall(b"".join(sent))
        assert received(stream, sum(map(len, wanted))) == b"".join(wanted)


def test_payloads_that_are_no_requests(snapd, _):
    with Server(snapd, *segments(snapd, HI)) as server, server.connect() as stream:
        for payload in [
            b"", b"\0", b"\x01", b"\x01\0" + bytes(7), b"\x02\0", b"\x03\x03", b"\x04", b"\x81" + bytes(8),
            b"\xe0" + bytes(9), b"\xff" * 66_000, b"\x02" * 66_000,
        ]:
            stream.sendall(frame(payload) + STATUS)
            wanted = MALFORMED + standings((1, False))
            assert received(stream, len(wanted)) == wanted, payload[:10]
        # The longest request that there is, and one byte above the longest value.
        for value in (b"v" * 65_990, b"v" * 4_081):
            stream.sendall(update(0, 2, value))
            assert received(stream, 14) == refused(3, len(value))
        for number, answer in [
            (0, refused(5, 1)), (2**63 - 1, refused(5, 1)), (2**63, refused(5, 1)), (2**64 - 1, refused(5, 1)),
        ]:
            stream.sendall(update(0, number, b"hi"))
            assert received(stream, 14) == answer


def test_lengths_above_the_limit(snapd, _):
    """The reply, an orderly end, and the other connections continue. Bytes after such a length may cost its peer the
    reply."""
    with Server(snapd, *segments(snapd, HI)) as server:
        for length in (66_001, 2**24, 2**31, 2**32 - 1):
            with server.connect() as stream:
                stream.sendall(STATUS + length.to_bytes(4, "big"))
                assert to_its_end(stream) == standings((1, False)) + TOO_LARGE
            with server.connect() as stream:
                try:
                    stream.sendall(length.to_bytes(4, "big") + b"x" * 200_000)
                    assert to_its_end(stream) in (b"", TOO_LARGE)
                except OSError:
                    pass
        server.ask(STATUS, standings((1, False)))


def test_random_bytes(snapd, rng):
    """With a fixed seed. Whatever they are, each connection ends and the server continues."""
    starts = [b"", b"\0\0\0", b"\0\0", b"\0\0\0\x0c\x01\0", b"\0\0\0\x01", SCAN]
    with Server(snapd, *segments(snapd, HI, FRESH), connections=402, scanners=2) as server:
        for number in range(400):
            with server.connect() as stream:
                try:
                    stream.sendall(rng.choice(starts) + rng.randbytes(rng.randrange(1, 600)))
                    stream.shutdown(socket.SHUT_WR)
                    to_its_end(stream)
                except OSError:
                    pass
        (first, _), (second, _) = server.scan()
        server.ask(update(0, first + 1, b"x"), stored(first + 1))
        assert (first, second) == (1, 0), "random bytes made an update"
        assert server.end().output == b"served 402\n"


def test_half_open_connections(snapd, _):
    """A peer that writes no more still gets its replies, whole frames and cut ones; one that vanishes does no harm."""
    with Server(snapd, *fresh(snapd, 1), scanners=1, more=("--log", "debug")) as server:
        for number, rest in enumerate((b"", b"\0", SCAN[:-1], update(0, 9, b"cut off")[:-1]), start=1):
            with server.connect() as stream:
                stream.sendall(update(0, number, b"x") + SCAN + rest)
                stream.shutdown(socket.SHUT_WR)
                assert to_its_end(stream) == stored(number) + snapshot((number, b"x"))
        comes_to(4, lambda: len(server.logged("DEBUG", "connection")))
        # The note of an end comes before its socket is closed.
        comes_to(0, server.connections)
        before = server.descriptors()
        for number, ending in enumerate((reset, socket.socket.close) * 20, start=5):
            stream = server.connect()
            stream.sendall(update(0, number, b"gone") + SCAN * 3)
            ending(stream)
            # It was stored, or never read, without a reply. The same update again is acknowledged.
            server.ask(update(0, number, b"gone"), stored(number))
        comes_to(before, server.descriptors)


def test_a_client_that_vanishes_leaves_its_update(snapd, _):
    with Server(snapd, *fresh(snapd, 1)) as server:
        stream = server.connect()
        stream.sendall(update(0, 1, b"hi"))
        assert received(stream, 13) == stored(1)
        reset(stream)
        server.ask(update(0, 1, b"hi"), stored(1))
        assert server.scan() == [(1, b"hi")]


def test_two_connections_see_each_other(snapd, _):
    """An update is answered on one; then a scan on another one, which made an update of another segment before,
    has it."""
    for scanners in (1, 2, 4):
        with (
            Server(snapd, *fresh(snapd, 2), scanners=scanners) as server,
            server.connect() as one,
            server.connect() as other,
        ):
            for number in range(1, 101):
                other.sendall(update(1, number, b"b%d" % number))
                assert received(other, 13) == stored(number)
                one.sendall(update(0, number, b"a%d" % number))
                assert received(one, 13) == stored(number)
                other.sendall(SCAN)
                assert entries_of(reply(other)) == [(number, b"a%d" % number), (number, b"b%d" % number)]


MANY = 40


def used(server, count, value):
    """Stores so often in each segment that the server's memory has been used wherever it will be."""
    with server.connect() as stream:
        for number in range(1, MANY + 1):
            stream.sendall(b"".join(update(segment, number, value) for segment in range(count)))
            assert received(stream, count * 13) == stored(number) * count
        for _ in range(20):
            stream.sendall(SCAN)
            assert entries_of(reply(stream)) == [(MANY, value)] * count


def test_a_peer_that_never_reads(snapd, _):
    """It is read no more, costs no more memory than its share, and blocks no other; once it reads it gets every
    reply."""
    longest = b"v" * 4_080
    for scanners in (1, 2):
        with Server(snapd, *fresh(snapd, 16), scanners=scanners) as server, server.connect() as flood:
            used(server, 16, longest)
            before = server.memory()
            # What the system itself keeps of it has a limit that no machine's settings raise.
            flood.setsockopt(socket.SOL_SOCKET, socket.SO_SNDBUF, 1 << 17)
            flood.setblocking(False)
            sent, waits = 0, 0
            while waits < 50:
                try:
                    sent += flood.send(SCAN * 4_096)
                    waits = 0
                    assert sent < 64 << 20, "it is still read"
                except BlockingIOError:
                    time.sleep(0.01)
                    waits += 1
            for number in range(MANY, MANY + 2 * scanners):
                server.ask(update(15, number + 1), stored(number + 1))
            assert server.memory() < before + 8_192, (before, server.memory())
            assert sent // len(SCAN) > 100
            flood.settimeout(PATIENCE)
            for _ in range(100):
                assert len(entries_of(reply(flood))) == 16


# ---- many connections ----

def raise_descriptors(wanted):
    """Raises this process's limit of open files, which the servers inherit."""
    soft, hard = resource.getrlimit(resource.RLIMIT_NOFILE)
    if soft >= wanted:
        return
    try:
        resource.setrlimit(resource.RLIMIT_NOFILE, (wanted, max(hard, wanted)))
    except (ValueError, OSError) as why:
        raise Skipped(f"{wanted} open files aren't allowed here: {why}")


def test_two_thousand_idle_connections_beside_eight_active_ones(snapd, _):
    raise_descriptors(4_500)
    with Server(snapd, *fresh(snapd, 8), scanners=2) as server:
        used(server, 8, b"value")
        before, threads = server.memory(), threads_of(server)
        idle = [server.connect() for _ in range(2_000)]
        # A few of them have asked, or are within a frame.
        for stream in idle[::10]:
            stream.sendall(SCAN)
        for stream in idle[::10]:
            assert len(entries_of(reply(stream))) == 8
            stream.sendall(SCAN[:3])
        with selectors.DefaultSelector() as ready:
            for segment in range(8):
                stream = server.connect()
                ready.register(stream, selectors.EVENT_READ, [segment, MANY + 1])
                stream.sendall(update(segment, MANY + 1, b"%d" % (MANY + 1)) + SCAN)
            while ready.get_map():
                events = ready.select(PATIENCE)
                assert events, "an active connection isn't answered"
                for key, _ in events:
                    segment, number = key.data
                    assert received(key.fileobj, 13) == stored(number)
                    assert entries_of(reply(key.fileobj))[segment] == (number, b"%d" % number)
                    if number == MANY + 100:
                        ready.unregister(key.fileobj)
                        key.fileobj.close()
                        continue
                    key.data[1] += 1
                    key.fileobj.sendall(update(segment, number + 1, b"%d" % (number + 1)) + SCAN)
        assert threads_of(server) == threads, "a connection costs a thread"
        assert server.memory() < before + 8_192, (before, server.memory())
        # They are all still served.
        for place, stream in enumerate(idle):
            stream.sendall(STATUS if place % 10 else SCAN[3:])
        for stream in idle:
            assert reply(stream)[0] in (0x82, 0x83)
            stream.close()


def threads_of(server):
    with open(f"/proc/{server.process.pid}/status") as status:
        return int(re.search(r"Threads:\s+(\d+)", status.read())[1])


def test_five_hundred_are_opened_and_closed_at_once(snapd, _):
    raise_descriptors(2_000)
    with Server(snapd, *segments(snapd, HI), scanners=2) as server:
        server.ask(STATUS, standings((1, False)))
        comes_to(0, server.connections)
        before = server.descriptors()
        for ending in (socket.socket.close, reset):
            for stream in all_at_once(server, 500):
                ending(stream)
            comes_to(before, server.descriptors)
            server.ask(SCAN, snapshot((1, b"hi")))
        # And once more with a request each.
        streams = all_at_once(server, 500)
        for stream in streams:
            stream.settimeout(PATIENCE)
            stream.sendall(SCAN)
        for stream in streams:
            assert received(stream, len(snapshot((1, b"hi")))) == snapshot((1, b"hi"))
            stream.close()
        comes_to(before, server.descriptors)


def all_at_once(server, count):
    """Begins `count` connections before it waits for any of them."""
    streams = [socket.socket() for _ in range(count)]
    for stream in streams:
        stream.setblocking(False)
        stream.connect_ex(server.place)
    return streams
