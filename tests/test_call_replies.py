"""What a call prints and says: of each reply, of what is none, and where its connection,
its input or its output fails in the middle."""

import contextlib
import errno
import shlex
import socket
import struct

from clients import Peer
from program import Run
from serving import frame, free_port, received, refused, snapshot, standings, stored
from streams import WHY, failing
from test_serve_sockets import Sockets

NO_ANSWER = "A: what came isn't an answer to the request: is a snapd at the other end?: check the address"
ENDED = (
    "A: the connection ended before the reply: whether the request was done isn't known: "
    "send it again, since an update is stored once"
)
UNCONNECTED = (
    "A: no connection to the server could be made\n"
    "A: Connection refused (os error 111): nobody listens there: start snapd serve there, or wait for it with --wait"
)


def named(*entries):
    """The frame of the reply to a part: each entry a segment, its number and its value."""
    parts = (struct.pack(">BQI", segment, number, len(value)) + value for segment, number, value in entries)
    return frame(bytes([0x84, len(entries)]) + b"".join(parts))


SCANNED = snapshot((1, b"hi"), (0, b""))
PART = named((3, 1, b"hi"), (12, 258, b""))
THIRD = named((3, 1, b"hi"))
STATES = standings((1, False), (12, True))
SOUND, FENCED = standings((1, False)), standings((1, True), (1, False), (12, True))
CONFLICT, NO_SEGMENT = refused(4, 258), refused(2, 2)
# Where a reply that has begun ends.
STORED_HEAD, STATES_HEAD = stored(1)[:4], STATES[:4]


def answers(reply):
    """Reads a request, and answers by these bytes and no more."""
    def handle(peer, stream):
        head = received(stream, 4)
        peer.heard[-1] = head + received(stream, int.from_bytes(head, "big"))
        with contextlib.suppress(OSError):
            stream.sendall(reply)
            stream.shutdown(socket.SHUT_WR)
            stream.recv(1)
    return handle


def called(snapd, words, comes, env=None, **more):
    """Runs words whose connections, in order, get these replies. For `None`, which may be the first, none can be made.
    In the words and the errors `A` means the address."""
    if comes[0] is None:
        sockets = Sockets(snapd, "connect", 1, errno.ECONNREFUSED)
        sockets.fail()
        env = sockets.env
    with Peer(*(answers(it) for it in comes if it is not None)) as peer:
        run = snapd(*(peer.address if it == "A" else it for it in shlex.split(words)), env=env, **more)
    return Run(run.status, run.output, run.errors.replace(peer.address, "A"))


def lines(said):
    return "".join(f"snapd: {it}\n" for it in said.splitlines())


def end_so(snapd, *rows):
    """Words, the replies to them, and how they end: the status, what is printed, and what is said."""
    for words, comes, status, printed, said in rows:
        run = called(snapd, words, comes, stdin="hi")
        assert run == Run(status, printed.encode(), lines(said)), (words, run)


# ---- replies ----

def test_replies_are_printed(snapd, _):
    end_so(
        snapd,
        ("call A update 0 1 6869", [stored(1)], 0, "stored 1\n", ""),
        ("call A scan", [SCANNED], 0, "segment 0 number 1 value 6869\nsegment 1 number 0 value -\n", ""),
        ("call A scan", [snapshot((2**63 - 1, b"\x00\xff\n"))], 0,
         "segment 0 number 9223372036854775807 value 00ff0a\n", ""),
        ("call A part 1008", [PART], 0, "segment 3 number 1 value 6869\nsegment 12 number 258 value -\n", ""),
        ("call A status", [STATES], 0, "segment 0 number 1 fenced 0\nsegment 1 number 12 fenced 1\n", ""),
        ("call A get 3", [THIRD], 0, "hi", ""),
        ("call A health", [SOUND], 0, "healthy\n", ""),
        ("call A health --timeout 86400 --text", [SOUND], 0, "healthy\n", ""),
        ("call A health", [FENCED], 3, "fenced 0\nfenced 2\n", ""),
        ("call A health --tries 2", [None, STATES], 3, "fenced 1\n", ""),
        ("call A health --text", [STATES], 3, "fenced 1\n", ""),
    )


def test_values_are_printed_as_text(snapd, _):
    """A status has none, so it is as without."""
    end_so(
        snapd,
        ("call A scan --text", [SCANNED], 0, 'segment 0 number 1 text "hi"\nsegment 1 number 0 text ""\n', ""),
        ("call A part 1008 --text", [PART], 0, 'segment 3 number 1 text "hi"\nsegment 12 number 258 text ""\n', ""),
        ("call A status --text", [STATES], 0, "segment 0 number 1 fenced 0\nsegment 1 number 12 fenced 1\n", ""),
    )


# Values, and the text that they are printed as, where they are any: what would move a terminal isn't,
# in one byte or in two.
VALUES = [
    (b"", b'""'),
    (b"step 100\n", b'"step 100\\n"'),
    (b"a\tb\r\n", b'"a\\tb\\r\\n"'),
    (b'a "b" \\', b'"a \\"b\\" \\\\"'),
    (b"20 \xc2\xb0C", b'"20 \xc2\xb0C"'),
    (b"\xc3\x84", b'"\xc3\x84"'),
    (b"\xc2\x9b31m", None),
    (b"\x1b[31m", None),
    (b"\x00", None),
    (b"\x7f", None),
    (b"\xff", None),
    (b"\xc3", None),
]


def test_which_values_are_text(snapd, _):
    printed = (b"value " + value.hex().encode() if text is None else b"text " + text for value, text in VALUES)
    wanted = b"".join(b"segment %d number 1 %b\n" % row for row in enumerate(printed))
    assert (
        called(snapd, "call A scan --text", [snapshot(*((1, value) for value, _text in VALUES))]) == Run(0, wanted, "")
    )


def test_documents_are_printed(snapd, _):
    of_scan = '{"segments":[{"segment":0,"number":1,"text":"hi"},{"segment":1,"number":0,"text":""}'
    last = (
        '{"segment":2,"number":9223372036854775807,"base64":"/w=="},'
        '{"segment":3,"number":12,"text":"a \\"b\\" \\\\ \\n\\u0001"}'
    )
    of_part = '{"segments":[{"segment":3,"number":1,"text":"hi"},{"segment":12,"number":258,"text":"%s"}]}\n'
    of_status = '{"segments":[{"segment":0,"number":%d,"fenced":false},{"segment":1,"number":%d,"fenced":true}]}\n'
    end_so(
        snapd,
        ("call A scan --json", [SCANNED], 0, of_scan + "]}\n", ""),
        ("call A scan --json", [snapshot((1, b"hi"), (0, b""), (2**63 - 1, b"\xff"), (12, b'a "b" \\ \n\x01'))], 0,
         f"{of_scan},{last}]}}\n", ""),
        ("call --json A part 1008", [PART], 0, of_part % "", ""),
        ("call A --json part 1008", [named((3, 1, b"hi"), (12, 258, b"\xc3\xa9"))], 0, of_part % "\u00e9", ""),
        ("call A --json status --timeout=1", [STATES], 0, of_status % (1, 12), ""),
        ("call A status --json", [standings((5, False), (7, True))], 0, of_status % (5, 7), ""),
        ("call A health --json", [SOUND], 0, '{"healthy":true}\n', ""),
        ("call A health --json", [standings((5, False), (5, False))], 0, '{"healthy":true}\n', ""),
        ("call A health --json", [FENCED], 3, '{"healthy":false,"fenced":[0,2]}\n', ""),
        ("call A health --json", [standings((7, True), (5, False), (7, True))], 3,
         '{"healthy":false,"fenced":[0,2]}\n', ""),
    )


# ---- refusals, and what is no reply ----

def test_refusals_are_said_and_not_tried_again(snapd, _):
    end_so(
        snapd,
        ("call A update 0 1 6869 --tries 10", [CONFLICT], 3, "", "refused 4 Conflict 258"),
        ("call A health", [CONFLICT], 3, "", "refused 4 Conflict 258"),
        ("call A part 1008", [NO_SEGMENT], 3, "", "refused 2 NoSegment 2"),
        ("call A get 3", [NO_SEGMENT], 3, "", "refused 2 NoSegment 2"),
        ("call A put 0 --tries 10", [CONFLICT], 3, "", "refused 4 Conflict 258"),
        ("call A put 0 --tries 10", [STATES, CONFLICT], 3, "", "refused 4 Conflict 258"),
        ("dump A", [refused(7, 0)], 3, "", "refused 7 Full 0"),
        # The longest line.
        ("call A status --json", [refused(12, 2**64 - 1)], 3, "", "refused 12 AlreadyFormatted 18446744073709551615"),
    )


def test_replies_to_something_else_are_none(snapd, _):
    """A get wants the value of its segment, and of no other one."""
    end_so(
        snapd,
        ("call A update 0 1 6869", [STATES], 1, "", NO_ANSWER),
        ("call A part 1008", [SCANNED], 1, "", NO_ANSWER),
        ("call A health", [stored(1)], 1, "", NO_ANSWER),
        ("call A get 3", [named((2, 0, b""))], 1, "", NO_ANSWER),
        ("call A get 3", [PART], 1, "", NO_ANSWER),
        ("call A get 3", [SCANNED], 1, "", NO_ANSWER),
    )


def test_connections_that_fail_are_said_once_all_were_tried(snapd, _):
    end_so(
        snapd,
        ("call A update 0 1 6869", [None], 1, "", UNCONNECTED),
        ("call A update 0 1 6869", [stored(1)[:-1]], 1, "", ENDED),
        ("call A update 0 1 6869 --tries 3", [None, STORED_HEAD, stored(1)], 0, "stored 1\n", ""),
        ("call A update 0 1 6869 --tries 10", [None, STORED_HEAD, stored(1)], 0, "stored 1\n", ""),
        ("call A update 0 1 6869 --tries 2", [None, STORED_HEAD], 1, "", ENDED),
    )


# ---- puts ----

def test_a_put_is_a_status_and_an_update(snapd, _):
    """Each has its tries. If an update has no answer, the advice has the number before its own."""
    end_so(
        snapd,
        ("call A put 0", [STATES, stored(1)], 0, "stored 1\n", ""),
        ("call A put 1", [STATES, stored(1)], 0, "stored 1\n", ""),
        ("call A put 0 --value hi --after 6", [stored(1)], 0, "stored 1\n", ""),
        ("call A put 0 --tries 2", [None, STATES, STORED_HEAD, stored(1)], 0, "stored 1\n", ""),
        ("call A put 0", [STATES, STORED_HEAD], 1, "", ENDED.replace("again,", "again with --after 1,")),
        ("call A put 0", [STATES_HEAD], 1, "", ENDED),
        # The server has two segments.
        ("call A put 2", [STATES], 3, "", "refused 2 NoSegment 2"),
    )
    for value in (b"", b"a" * 4_080):
        assert called(snapd, "call A put 0", [STATES, stored(1)], stdin=value) == Run(0, b"stored 1\n", "")


def test_a_put_has_its_value_before_it_connects(snapd, _):
    """No server listens there."""
    nobody = f"127.0.0.1:{free_port()}"
    snapd("call", nobody, "put", 0, stdin=b"a" * 4_081).refused(3, "TooLong")
    for count in range(3):
        snapd("call", nobody, "put", 0, stdin="hi", env=failing(0, count)).gave(
            1, errors=f"snapd: standard input: {WHY}\n"
        )


# ---- outputs that fail ----

LOST = f"standard output: {WHY}"
# Words, their reply, what can be printed of it, and what is said.
CUT = [
    ("call A update 0 1 6869", stored(1), "stored ", f"stored 1, but {LOST}"),
    ("call A scan", SCANNED, "", LOST),
    ("call A part 1008", PART, "segment ", LOST),
    ("call A health", FENCED, "fenced 0\n", LOST),
    ("call A get 3", THIRD, "h", LOST),
    ("call A scan --json", SCANNED, '{"segments":', LOST),
]


def test_what_can_not_be_printed_whole_has_failed(snapd, _):
    """Also that of an update that was stored."""
    for words, reply, printed, said in CUT:
        run = called(snapd, words, [reply], env=failing(1, len(printed)))
        assert run == Run(1, printed.encode(), lines(said)), (words, run)
