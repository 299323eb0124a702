"""What each poll of `snapd watch` requests, what it prints of the replies, and how a board is drawn: to the byte, with
a peer that sends given replies."""

import contextlib
import os
import re
import shlex
import socket

from clients import Peer
from preload import library
from serving import SCAN, STATUS, Server, fresh, received, refused, snapshot, standings, stored, update
from terminal import Terminal
from test_call_replies import named
from test_http import part
from test_watch import Watch, row
from waiting import wait_until


def answers(*replies):
    """Answers the requests of a connection, one after the other, and hangs up after the last one."""
    def handle(peer, stream):
        with contextlib.suppress(OSError):
            for reply in replies:
                head = received(stream, 4)
                peer.heard[-1] += head + received(stream, int.from_bytes(head, "big"))
                stream.sendall(reply)
            stream.shutdown(socket.SHUT_WR)
            stream.recv(1)
    return handle


NEW, FENCED = standings((1, False), (0, False)), standings((1, False), (0, True))
HELD = snapshot((1, b"hi"), (0, b""))
LINES = [row(0, 1, 'text "hi"'), row(1, 0, 'text ""')]
MANY = standings(*[(1, False)] * 12, (9, True))
# Words, the replies to the polls, their requests, and the lines that are printed. A poll requests the numbers, and the
# values if a number has changed.
LOOKS = [
    ("A", [NEW, HELD], [STATUS, SCAN], LINES),
    ("A", [NEW, HELD, NEW, NEW], [STATUS, SCAN, STATUS, STATUS], LINES),
    ("A", [NEW, HELD, FENCED], [STATUS, SCAN, STATUS], [*LINES, row(1, 0, 'text ""', fenced=1)]),
    (
        "A", [NEW, HELD, NEW, standings((1, False), (258, False)), snapshot((1, b"hi"), (258, b"\x1b[2J"))],
        [STATUS, SCAN, STATUS, STATUS, SCAN], [*LINES, row(1, 258, "value 1b5b324a")],
    ),
    # Another server's numbers may be lower.
    (
        "A", [NEW, HELD, standings((0, False), (0, False)), snapshot((0, b""), (0, b""))], [STATUS, SCAN, STATUS, SCAN],
        [*LINES, row(0, 0, 'text ""')],
    ),
    ("A 1 1", [FENCED, named((1, 2, b"ok"))], [STATUS, part(0x0002)], [row(1, 2, 'text "ok"', fenced=1)]),
    ("A 3 0 3", [MANY, named((0, 1, b""), (3, 1, b""))], [STATUS, part(0x0009)],
     [row(0, 1, 'text ""'), row(3, 1, 'text ""')]),
    ("A 15", [standings(*[(1, False)] * 16), named((15, 1, b"x"))], [STATUS, part(0x8000)], [row(15, 1, 'text "x"')]),
    (
        "A 0 1 12 --json", [MANY, named((0, 1, b"hi"), (1, 1, b""), (12, 9, b"\xff"))], [STATUS, part(0x1003)],
        [
            '{"segment":0,"number":1,"fenced":false,"text":"hi"}',
            '{"segment":1,"number":1,"fenced":false,"text":""}',
            '{"segment":12,"number":9,"fenced":true,"base64":"/w=="}',
        ],
    ),
    (
        "A --json",
        [
            NEW, HELD, standings((1, True), (0, False)), standings((1, True), (2**63 - 1, True)),
            snapshot((1, b"hi"), (2**63 - 1, b'"\\\t\xc2\x80')),
        ],
        [STATUS, SCAN, STATUS, STATUS, SCAN],
        [
            '{"segment":0,"number":1,"fenced":false,"text":"hi"}',
            '{"segment":1,"number":0,"fenced":false,"text":""}',
            '{"segment":0,"number":1,"fenced":true,"text":"hi"}',
            '{"segment":1,"number":9223372036854775807,"fenced":true,"text":"\\"\\\\\\t\x80"}',
        ],
    ),
]


def test_what_a_look_asks_and_prints(snapd, _):
    for words, replies, asked, printed in LOOKS:
        with Peer(answers(*replies)) as peer:
            with Watch(snapd, *(peer.address if it == "A" else it for it in words.split())) as watch:
                assert watch.lines(len(printed)) == printed, words
                # It has had all answers once it reports that the connection is lost.
                wait_until(watch.notes, "the end")
                assert watch.is_silent(0.05) and peer.heard == [b"".join(asked)], (words, peer.heard)


# Words, the answers, and how it ends.
ENDS = [
    ("watch A 5", [NEW, refused(2, 2)], 3, "refused 2 NoSegment 2"),
    ("watch A", [refused(2, 2)], 3, "refused 2 NoSegment 2"),
    ("watch A", [], 1,
     "A: the connection ended before the reply: whether the request was done isn't known: start snapd serve there"),
    ("watch A", [NEW, NEW], 1,
     "A: what came isn't an answer to the request: is a snapd at the other end?: check the address"),
]


def test_a_first_look_that_fails_ends_it(snapd, _):
    for words, replies, status, said in ENDS:
        with Peer(answers(*replies)) as peer:
            run = snapd(*(peer.address if it == "A" else it for it in shlex.split(words)))
        run.gave(status, errors=f"snapd: {said.replace('A:', f'{peer.address}:')}\n")


def at_last(*replies, still):
    """The same, and then the last answer again and again."""
    def handle(peer, stream):
        with contextlib.suppress(OSError):
            for reply in replies:
                received(stream, int.from_bytes(received(stream, 4), "big"))
                stream.sendall(reply)
            while head := received(stream, 4):
                received(stream, int.from_bytes(head, "big"))
                stream.sendall(still)
    return handle


def test_a_board_is_drawn_in_place(snapd, _):
    """In the place of the three lines before it."""
    fenced = standings((4, True))
    peer = Peer(at_last(standings((1, False)), snapshot((1, b"a")), fenced, snapshot((4, b"a\tb")), still=fenced))
    with peer, Terminal() as terminal, Watch(snapd, peer.address, output=terminal.side, env={"NO_COLOR": "1"}):
        shown = terminal.comes_to(lambda it: it[2].split()[1] == "4" and it[2].split()[2] not in ("0s", "1s"))
        age, rate = shown[2].split()[2:4]
        assert re.fullmatch(r"\d+s", age) and re.fullmatch(r"\d+\.\d", rate)
        assert terminal.told == (
            f"\x1b[?25l\x1b[?7l\r\x1b[3A{peer.address}: connected\x1b[K\r\x1b[B"
            "segment      number   age    rate  state   value\x1b[K\r\x1b[B"
            f'      0           4{age:>6}{rate:>8}  fenced  "a\\tb"\x1b[K\r\x1b[B\x1b[J\x1b[?7h\x1b[?25h'
        ), terminal.told


# By how many seconds the clock is ahead in all, and the age that a board has then: of a change that was seen before,
# a few seconds ago.
AGES = [
    (0, r"\ds"), (50, r"5\ds"), (60, "1m"), (3_550, "59m"), (3_600, "1h"), (86_300, "23h"), (86_400, "1d"),
    (172_800, "2d"),
]


def test_an_age_is_in_the_unit_that_fits_it(snapd, _):
    """A poll in which the clock leaps is late. Then the next one connects again."""
    ahead = snapd.file("ahead")
    ahead.touch()
    env = {"NO_COLOR": "1", "LD_PRELOAD": library("clock"), "CLOCK_AHEAD": str(ahead)}
    with (
        Server(snapd, *fresh(snapd, 1)) as server,
        Terminal() as terminal,
        Watch(snapd, server.address, output=terminal.side, env=env),
    ):
        assert terminal.board()[2].split()[2] == "-"
        server.ask(update(0, 1, b"a"), stored(1))
        for seconds, age in AGES:
            os.truncate(ahead, seconds)
            terminal.comes_to(lambda it: re.fullmatch(age, it[2].split()[2]))
