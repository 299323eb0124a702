"""`snapd call ADDR put I` and `get I`: a value as text, under a number that the user needn't count. On real servers,
and on peers that record what was sent."""

import errno

import segment_file as layout
from clients import Peer, hangs_up_after, says
from program import Run
from serving import FRESH, STATUS, Server, fresh, frame, free_port, refused, segments, standings, stored, update
from test_serve_disks import TWO, Disk


def put(snapd, server, segment, *more, stdin=b""):
    return snapd("call", server.address, "put", segment, *more, stdin=stdin)


def get(snapd, server, segment, *more):
    return snapd("call", server.address, "get", segment, *more)


def peer_of(*turns):
    """Of each pair hears a request of that length, and answers by that frame, or hangs up for `None`."""
    return Peer(*(says(answer, len(request)) if answer else hangs_up_after(len(request)) for request, answer in turns))


# ---- on a server ----

def test_a_value_goes_in_and_comes_back(snapd, random):
    """Byte for byte, of any bytes, and of no byte and the most; of each segment apart."""
    with Server(snapd, *fresh(snapd, 3)) as server:
        values = [b"step 100\n", b"", bytes(range(256)), random.randbytes(layout.MAX_VALUE), "é\n".encode(), b"\n"]
        for number, value in enumerate(values, 1):
            for segment in range(3):
                mine = value + bytes([segment]) * (len(value) < layout.MAX_VALUE)
                put(snapd, server, segment, stdin=mine).gave(0, f"stored {number}\n")
                get(snapd, server, segment).gave(0, mine)
        put(snapd, server, 2, "--value", "from the words").gave(0, f"stored {len(values) + 1}\n")
        put(snapd, server, 2, "--value", "", stdin=b"not read").gave(0, f"stored {len(values) + 2}\n")
        get(snapd, server, 2).gave(0, b"")
        put(snapd, server, 2, "--value=-", "--tries", 3).gave(0, f"stored {len(values) + 3}\n")
        get(snapd, server, 2, "--tries", 3).gave(0, b"-")


def test_a_put_after_a_number_is_stored_once(snapd, _):
    """A repeat is answered as stored, and another value or another number is refused as an update's is."""
    with Server(snapd, *fresh(snapd, 2)) as server:
        for _repeat in range(2):
            put(snapd, server, 1, "--after", 0, stdin="one").gave(0, "stored 1\n")
        put(snapd, server, 1, "--after", 0, stdin="two").gave(3, errors="snapd: refused 4 Conflict 1\n")
        put(snapd, server, 1, "--after", 2, stdin="two").gave(3, errors="snapd: refused 5 OutOfStep 1\n")
        put(snapd, server, 1, "--after", 1, stdin="two").gave(0, "stored 2\n")
        assert server.scan() == [(0, b""), (2, b"two")]


def test_what_is_refused_has_the_texts_of_an_update(snapd, _):
    disk = Disk(snapd)
    with Server(snapd, *segments(snapd, TWO, FRESH), env=disk.env) as server:
        for segment in (2, 16, 255):
            wanted = snapd("call", server.address, "update", segment, 1, "00")
            for more in ((), ("--after", 0)):
                assert put(snapd, server, segment, *more, stdin="x") == wanted, more
        long = "x" * (layout.MAX_VALUE + 1)
        wanted = snapd("call", server.address, "update", 1, 1, long.encode().hex())
        assert put(snapd, server, 1, "--value", long) == wanted
        put(snapd, server, 1, stdin=long).refused(3, "TooLong")
        disk.says(f"S0 sync fail {errno.EIO}")
        put(snapd, server, 0, stdin="x").gave(3, errors="snapd: refused 13 DeviceFailed 1\n")
        disk.says()
        wanted = snapd("call", server.address, "update", 0, 2, "00")
        assert wanted.errors.startswith("snapd: refused 6 Fenced "), wanted
        assert put(snapd, server, 0, stdin="x") == wanted
        get(snapd, server, 0).gave(0, server.scan()[0][1])
        get(snapd, server, 2).gave(3, errors="snapd: refused 2 NoSegment 2\n")


def test_a_put_outlives_a_kill(snapd, _):
    files = fresh(snapd, 1)
    with Server(snapd, *files) as server:
        put(snapd, server, 0, stdin="hi").gave(0, "stored 1\n")
    with Server(snapd, *files) as server:
        get(snapd, server, 0).gave(0, "hi")
        put(snapd, server, 0, stdin="ho").gave(0, "stored 2\n")


# ---- what is sent ----

NUMBERS = standings((4, False), (7, False), (0, True))
THREE_OF_ONE = frame(b"\x84\x01\x03" + bytes(8) + (2).to_bytes(4, "big") + b"hi")


def test_a_put_sends_a_status_and_the_next_number(snapd, _):
    with peer_of((STATUS, NUMBERS), (update(1, 8, b"hi"), stored(8))) as peer:
        put(snapd, peer, 1, stdin="hi").gave(0, "stored 8\n")
    assert peer.heard == [STATUS, update(1, 8, b"hi")]
    with peer_of((update(1, 42, b"hi"), stored(42))) as peer:
        put(snapd, peer, 1, "--after", 41, stdin="hi").gave(0, "stored 42\n")
    assert peer.heard == [update(1, 42, b"hi")]


def test_the_same_update_is_sent_again_and_no_refused_one(snapd, _):
    again = update(0, 5, b"hi")
    with peer_of((STATUS, None), (STATUS, NUMBERS), (again, None), (again, None), (again, stored(5))) as peer:
        put(snapd, peer, 0, "--tries", 3, stdin="hi").gave(0, "stored 5\n")
    assert peer.heard == [STATUS, STATUS, again, again, again]
    for number, name in ((4, "Conflict"), (5, "OutOfStep")):
        with peer_of((STATUS, NUMBERS), (again, refused(number, 9))) as peer:
            put(snapd, peer, 0, "--tries", 10, stdin="hi").gave(3, errors=f"snapd: refused {number} {name} 9\n")
        assert peer.heard == [STATUS, again]


def test_a_put_without_an_answer_names_its_number(snapd, _):
    with peer_of((STATUS, NUMBERS), (update(0, 5, b"hi"), None)) as peer:
        why = (
            f"snapd: {peer.address}: the connection ended before the reply: whether the request was done isn't known: "
        )
        why += "send it again with --after 4, since an update is stored once\n"
        put(snapd, peer, 0, stdin="hi").gave(1, errors=why)


def test_the_value_comes_before_any_connection(snapd, _):
    """No server listens there: the fault of the value is printed all the same."""
    nobody = f"127.0.0.1:{free_port()}"
    snapd("call", nobody, "put", 0, stdin=b"x" * 4_081).refused(3, "TooLong")
    with open("/proc/self/mem", "rb") as unread:
        run = snapd("call", nobody, "put", 0, stdin=unread)
    assert run == Run(1, b"", "snapd: standard input: Input/output error (os error 5)\n"), run
    run = snapd("call", nobody, "put", 0, stdin=b"x" * 4_080)
    run.failed_with(
        1, f"snapd: {nobody}: no connection to the server could be made\n", f"snapd: {nobody}: Connection refused"
    )


def test_a_get_asks_for_one_segment(snapd, _):
    """Its reply has to have that segment, and no other one."""
    asked = frame(b"\x04\x00\x08")
    with peer_of((asked, THREE_OF_ONE)) as peer:
        get(snapd, peer, 3).gave(0, "hi")
    assert peer.heard == [asked]
    with peer_of((asked, THREE_OF_ONE)) as peer:
        why = "what came isn't an answer to the request: is a snapd at the other end?: check the address"
        get(snapd, peer, 2).gave(1, errors=f"snapd: {peer.address}: {why}\n")
