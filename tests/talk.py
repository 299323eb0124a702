"""A conversation with a server of two fresh segments, in which a request may be refused or its connection closed."""

import segment_file as layout
from serving import SCAN, STATUS, frame, reply, snapshot, standings, stored, update

VALUE = b"v" * layout.MAX_VALUE
# The reply to a scan after the talk.
HELD = snapshot((1, VALUE), (1, b"hi"))
# Each request, and what it is answered.
TALK = [
    (update(0, 1, VALUE), stored(1)),
    (SCAN, snapshot((1, VALUE), (0, b""))),
    (STATUS, standings((1, False), (0, False))),
    (update(1, 1, b"hi"), stored(1)),
    (SCAN, HELD),
]
# What is read of a connection that was closed.
CLOSED = frame(b"")


def told(stream, request=b""):
    """The reply's frame, or `CLOSED`."""
    try:
        stream.sendall(request)
        return frame(reply(stream))
    except ConnectionError:
        return CLOSED


def asked(server, request):
    """The same of a request on a connection of its own."""
    with server.connect() as stream:
        return told(stream, request)


def talked(server, *refusals):
    """The talk, each request on a connection of its own, and once more where it got one of these. How often it did."""
    count = 0
    for request, wanted in TALK:
        got = asked(server, request)
        if got != wanted:
            assert got in refusals, (request[:20], got[:40])
            count += 1
            assert asked(server, request) == wanted, request[:20]
    return count
