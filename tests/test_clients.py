"""The clients in Python and C: the messages that they make and read, and what they say of refusals."""

import ast
import re
import socket

from clients import STORED_ONE, TOP, Client, Peer, ask, framed, oracle, raised, refused, says, vectors
from serving import FRESH, Server, segments
from waiting import PATIENCE

import snapd_client
from snapd_client import messages


# ---- formats ----

def test_the_oracle_answers_every_vector(_, __):
    rows = vectors()
    for size in (1, 7, 100_000):
        with oracle.Server(oracle.Model(2)) as server, socket.create_connection(server.server_address) as raw:
            sent = b"".join(request for request, _ in rows)
            for at in range(0, len(sent), size):
                raw.sendall(sent[at:at + size])
            came = b""
            while True:
                piece = raw.recv(4096)
                if not piece:
                    break
                came += piece
            assert came == b"".join(reply for _, reply in rows)


def test_python_makes_and_reads_every_vector(_, __):
    rows = vectors()
    made = [messages.update(0, 1, b"hi"), messages.update(0, 1, b"hi"), messages.update(0, 1, b"h"),
            messages.update(0, 3, b""), messages.update(2, 1, b""), messages.update(1, 1, b"v" * 4081), messages.scan(),
            messages.status(), messages.scan_some([1, 0]), messages.scan_some([1]), messages.scan_some([2])]
    assert made == [request for request, _ in rows[:11]]
    entries = (snapd_client.Entry(1, b"hi"), snapd_client.Entry(0, b""))
    standings = (snapd_client.Standing(1, False), snapd_client.Standing(0, False))
    read = [messages.reply(reply[4:]) for _, reply in rows]
    assert read[:2] == [(1,), (1,)]
    assert [(r.number, r.detail) for r in read[2:6]] == [(4, 1), (5, 1), (2, 2), (3, 4081)]
    assert read[6] == (entries,) and read[7] == (standings,)
    assert [list(r.entries.items()) for r in read[8:10]] == [list(enumerate(entries)), [(1, entries[1])]]
    assert [(r.number, r.detail) for r in read[10:]] == [(2, 2), *[(1, 0)] * 4, (15, 66000)]


def test_both_clients_send_every_vector_and_read_its_reply(_, __):
    rows = vectors()
    texts = ["stored 1", "stored 1", "refused 4 Conflict 1", "refused 5 OutOfStep 1", "refused 2 NoSegment 2",
             "refused 3 TooLong 4081", "segment 0 number 1 value 6869\nsegment 1 number 0 value -",
             "segment 0 number 1 fenced 0\nsegment 1 number 0 fenced 0",
             "segment 0 number 1 value 6869\nsegment 1 number 0 value -", "segment 1 number 0 value -",
             "refused 2 NoSegment 2"]
    words = [("update", 0, 1, "hi"), ("update", 0, 1, "hi"), ("update", 0, 1, "h"), ("update", 0, 3, ""),
             ("update", 2, 1, ""), ("update", 1, 1, "v" * 4081), ("scan",), ("status",),
             ("part", "0003"), ("part", "0002"), ("part", "0004")]
    for (request, reply), text, word in zip(rows, texts, words):
        with Peer(says(reply, len(request)), says(reply, len(request))) as peer:
            status, output, errors = ask(peer.address, *word)
            with Client(peer.address) as client:
                if text.startswith("refused"):
                    assert (status, output, errors) == (3, "", text + "\n")
                    assert isinstance(raised(lambda: call(client, word)), snapd_client.Refused)
                else:
                    assert (status, output, errors) == (0, text + "\n", "")
                    call(client, word)
        assert peer.heard == [request, request]


def call(client, word):
    if word[0] == "update":
        return client.update(word[1], word[2], word[3].encode())
    if word[0] == "part":
        return client.scan(segments=[segment for segment in range(16) if int(word[1], 16) >> segment & 1])
    return client.scan() if word[0] == "scan" else client.status()


def test_replies_that_are_none_are_told_apart(_, __):
    none = ["", "81", "81" + "00" * 7, "81" + "80" + "00" * 7, "81" + "00" * 9, "82", "8200", "8211" + "00" * 17 * 12,
            "8201" + "00" * 11, "8201" + "00" * 8 + "00000001", "8201" + "00" * 8 + "00000ff1" + "00" * 4081,
            "8201" + "80" + "00" * 11, "8201" + "00" * 13, "83", "8300", "8301" + "00" * 8 + "02",
            "8301" + "80" + "00" * 8,
            "8301" + "00" * 10, "8302" + "00" * 9, "e0", "e000" + "00" * 8, "e012" + "00" * 8, "e001" + "00" * 7,
            "e001" + "00" * 9, "00", "01", "ff" * 20]
    for text in none:
        error = raised(lambda: messages.reply(bytes.fromhex(text)))
        assert isinstance(error, snapd_client.BadReply), (text, error)
    handlers = [says(framed(text)) for text in none for _ in range(2)] + [says(b"\x00\x01\x01\xd1")] * 2
    with Peer(*handlers) as peer:
        for _ in range(len(none) + 1):
            assert ask(peer.address, "scan") == (1, "", "bad reply\n")
            with Client(peer.address) as client:
                assert isinstance(raised(client.scan), snapd_client.BadReply)


# Scans of some segments of a server of two, after one update of the first: segments, mask, frames,
# and what comes of it.
SOME = [
    ([1], "0002", "00000003 04 0002", "0000000f 84 01 01" + "00" * 12, {1: (0, b"")}, "segment 1 number 0 value -\n"),
    ([0], "0001", "00000003 04 0001", "00000011 84 01 00 0000000000000001 00000002 6869", {0: (1, b"hi")},
     "segment 0 number 1 value 6869\n"),
    ([1, 0], "0003", "00000003 04 0003", "0000001e 84 02 00 0000000000000001 00000002 6869 01" + "00" * 12,
     {0: (1, b"hi"), 1: (0, b"")}, "segment 0 number 1 value 6869\nsegment 1 number 0 value -\n"),
    ([2], "0004", "00000003 04 0004", "0000000a e0 02 0000000000000002", (2, 2), "refused 2 NoSegment 2\n"),
]


def scans_some(address):
    """Both clients make these scans on connections to this address, each two for a row, and read what comes."""
    for segments_named, mask, _, _, wanted, text in SOME:
        ended = ask(address, "part", mask)
        with Client(address) as client:
            if isinstance(wanted, dict):
                assert ended == (0, text, "")
                given = client.scan(segments=segments_named)
                assert given == wanted and list(given) == sorted(wanted)
                assert all(type(entry) is snapd_client.Entry for entry in given.values())
            else:
                assert ended == (3, "", text)
                refused(lambda: client.scan(segments=segments_named), *wanted)


def test_both_clients_scan_some_segments(_, __):
    frames = [(bytes.fromhex(request), bytes.fromhex(reply)) for _, _, request, reply, _, _ in SOME]
    with Peer(*[says(reply, len(request)) for request, reply in frames for _ in range(2)]) as peer:
        scans_some(peer.address)
    assert peer.heard == [request for request, _ in frames for _ in range(2)]
    assert [messages.scan_some(segments_named) for segments_named, *_ in SOME] == [request for request, _ in frames]
    assert messages.scan_some([15, 0, 15]) == bytes.fromhex("00000003 04 8001")
    assert messages.scan_some(range(16)) == bytes.fromhex("00000003 04 ffff")


def test_the_server_scans_some_segments(snapd, _):
    with Server(snapd, *segments(snapd, [(0, b""), (1, b"hi")], FRESH)) as server:
        scans_some(server.address)
        host, port = server.address.split(":")
        frames = [(request, reply) for _, _, request, reply, _, _ in SOME]
        frames.append(("00000003 04 0000", "0000000a e0 01" + "00" * 8))
        with socket.create_connection((host, int(port)), timeout=PATIENCE) as raw:
            for request, reply in frames:
                raw.sendall(bytes.fromhex(request))
                wanted = bytes.fromhex(reply)
                assert raw.recv(len(wanted), socket.MSG_WAITALL) == wanted, request
        for _, mask, _, _, wanted, text in SOME:
            if isinstance(wanted, dict):
                snapd("call", server.address, "part", mask).gave(0, text)


def test_replies_to_scans_of_some_segments_that_are_none(_, __):
    one = "00" * 12
    none = [
        "84", "8400", "8401", "8401" + one, "840101" + "00" * 11, "840101" + one + "00", "840201" + one, "840110" + one,
        "840101" + "80" + "00" * 11, "840101" + "00" * 8 + "00000001", "840101" + "00" * 8 + "00000ff1" + "00" * 4081,
        "840201" + one + "01" + one, "840201" + one + "00" + one, "8411" + "".join("%02x" % i + one for i in range(17)),
        "83" + "01" + "00" * 9, "8202" + one * 2,
    ]
    for text in none[:-2]:
        error = raised(lambda: messages.reply(bytes.fromhex(text)))
        assert isinstance(error, snapd_client.BadReply), (text, error)
    # Other segments than were named: one less, one more, another one.
    none += ["840101" + one, "840301" + one + "02" + one + "03" + one, "840201" + one + "03" + one]
    with Peer(*[says(framed(text), 7) for text in none for _ in range(2)]) as peer:
        for text in none:
            assert ask(peer.address, "part", "0006") == (1, "", "bad reply\n"), text
            with Client(peer.address) as client:
                assert isinstance(raised(lambda: client.scan(segments=[1, 2])), snapd_client.BadReply), text
                assert client._socket is None


def test_the_reply_to_a_scan_of_some_segments_answers_nothing_else(_, __):
    reply = framed("840100" + "00" * 12)
    with Peer(*[says(reply) for _ in range(4)], *[says(reply, 16) for _ in range(2)]) as peer:
        for words, call_ in ((("scan",), lambda it: it.scan()), (("status",), lambda it: it.status()),
                             (("update", 0, 1, "hi"), lambda it: it.update(0, 1, b"hi"))):
            assert ask(peer.address, *words) == (1, "", "bad reply\n")
            with Client(peer.address) as client:
                assert isinstance(raised(lambda: call_(client)), snapd_client.BadReply)


def test_the_longest_reply_is_read(_, __):
    entries = {i: ((1 << 63) - 1 - i, bytes([i]) * 4080) for i in range(16)}
    payload = b"\x84\x10" + b"".join(
        bytes([i]) + n.to_bytes(8, "big") + b"\x00\x00\x0f\xf0" + v for i, (n, v) in entries.items()
    )
    assert len(payload) == 65_490
    with Peer(*[says(framed(payload.hex()), 7)] * 2) as peer:
        lines = [f"segment {i} number {n} value {v.hex()}\n" for i, (n, v) in entries.items()]
        assert ask(peer.address, "part", "ffff") == (0, "".join(lines), "")
        with Client(peer.address) as client:
            assert client.scan(segments=range(16)) == entries


def test_a_number_that_was_not_asked_for_is_a_bad_reply(_, __):
    with Peer(says(STORED_ONE, 16), says(STORED_ONE, 16)) as peer:
        assert ask(peer.address, "update", 0, 2, "hi") == (1, "", "bad reply\n")
        with Client(peer.address) as client:
            error = raised(lambda: client.update(0, 2, b"hi"))
            assert isinstance(error, snapd_client.BadReply) and "1" in str(error) and "2" in str(error), error
            assert client._socket is None


def test_the_longest_snapshot_is_read(_, __):
    model = oracle.Model(16)
    for number, segment in enumerate(model.segments):
        segment.number, segment.value = (1 << 63) - 1 - number, bytes([number]) * 4080
    with oracle.Server(model) as server, Client(server.address) as client:
        assert client.scan() == tuple((s.number, s.value) for s in model.segments)
        lines = [f"segment {i} number {s.number} value {s.value.hex()}\n" for i, s in enumerate(model.segments)]
        assert ask(server.address, "scan") == (0, "".join(lines), "")
        assert client.update(3, (1 << 63) - 4, b"\x03" * 4080) == (1 << 63) - 4


def test_the_python_client_is_of_python_3_8(_, __):
    files = list((TOP / "clients" / "python").rglob("*.py"))
    assert len(files) == 11
    for file in files:
        ast.parse(file.read_text(), file.name, feature_version=(3, 8))


# ---- refusals ----

def test_every_refusal_of_the_model(_, __):
    model = oracle.Model(2)
    model.segments[1].fenced = True
    with oracle.Server(model) as server, Client(server.address) as client:
        assert client.update(0, 1, b"hi") == 1 and client.update(0, 1, b"hi") == 1
        refused(lambda: client.update(2, 1, b""), 2, 2)
        refused(lambda: client.update(0, 2, b"v" * 4081), 3, 4081)
        refused(lambda: client.update(0, 1, b"yo"), 4, 1)
        refused(lambda: client.update(0, 3, b""), 5, 1)
        refused(lambda: client.update(1, 1, b"hi"), 6, 0)
        assert client.status() == ((1, False), (0, True))
        model.segments[0].number = (1 << 63) - 1
        refused(lambda: client.update(0, 1 << 63, b""), 9, (1 << 63) - 1)
        assert model.answered == 9
        assert ask(server.address, "update", 1, 1, "hi") == (3, "", "refused 6 Fenced 0\n")
        assert ask(server.address, "update", 0, 1 << 63, "") == (3, "", f"refused 9 Exhausted {(1 << 63) - 1}\n")


def test_every_number_of_a_refusal_has_its_exception(_, __):
    names = re.findall(r"^\| (\d+) \| ([A-Z][A-Za-z]+) \|", (TOP / "docs" / "FORMATS.md").read_text(), re.MULTILINE)
    assert [int(number) for number, _ in names] == list(range(1, 18))
    with Peer(*[says(framed("e0%02x" % n + "00" * 6 + "0102")) for n in range(1, 18) for _ in range(2)]) as peer:
        for number, name in names:
            assert ask(peer.address, "scan") == (3, "", f"refused {number} {name} 258\n")
            with Client(peer.address) as client:
                error = raised(client.scan)
            assert type(error) is getattr(snapd_client, name) and error.detail == 258 and error.number == int(number)
            assert type(error).__name__ in snapd_client.__all__


def test_a_refusal_keeps_the_connection(_, __):
    with oracle.Server(oracle.Model(1)) as server, Client(server.address) as client:
        client.scan()
        before = client._socket
        refused(lambda: client.update(0, 7, b""), 5, 0)
        client.scan()
        assert client._socket is before


def test_what_is_no_value_or_number_is_a_type_error_before_a_byte_is_sent(_, __):
    client = Client("127.0.0.1:1", tries=1)
    for value in (5, "hi", [104, 105], None, 1.5, object()):
        error = raised(lambda: client.update(0, 1, value))
        assert type(error) is TypeError and type(value).__name__ in str(error), error
    for segment, number in ((0.0, 1), ("0", 1), (None, 1), (0, 1.0), (0, "1"), (0, None)):
        assert type(raised(lambda: client.update(segment, number, b""))) is TypeError
    for named in ("0", [0.0], [None], 3, [b"0"]):
        assert type(raised(lambda: client.scan(segments=named))) is TypeError, named
    for value in (bytearray(b"hi"), memoryview(b"hi"), memoryview(b"-h-i-")[1::2]):
        assert messages.update(0, 1, value) == messages.update(0, 1, b"hi")


def test_words_that_no_message_can_say(_, __):
    client = Client("127.0.0.1:1", tries=1)
    for call_ in (lambda: client.update(256, 1, b""), lambda: client.update(-1, 1, b""),
                  lambda: client.update(0, -1, b""), lambda: client.update(0, 1 << 64, b""),
                  lambda: client.scan(segments=[]), lambda: client.scan(segments=[16]),
                  lambda: client.scan(segments=[0, -1]),
                  lambda: client.update(0, 1, b"v" * 65_991), lambda: Client("nowhere"), lambda: Client("a:b"),
                  lambda: Client("a:1", timeout=0), lambda: Client("a:1", tries=0), lambda: Client("a:99999"),
                  lambda: Client("a:0"), lambda: Client(("a", 65_536)), lambda: Client(("a", "b"))):
        assert isinstance(raised(call_), ValueError)
    assert ask("127.0.0.1:0", "scan") == ask(":1", "scan") == ask("localhost:65536", "scan") == (2, "", "bad call\n")
    assert ask("127.0.0.1:1", "update", 256, 1, "") == (2, "", "bad call\n")
    for mask in ("0", "0000", "10000", "10001"):
        assert ask("127.0.0.1:1", "part", mask) == (2, "", "bad call\n")
