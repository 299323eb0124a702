"""The client in C where a peer hangs up, signals come, few bytes pass at a time, and between its calls: by a program
that is compiled to end at the first thing that C leaves undefined."""

import errno
import subprocess

from clients import TOP, Peer, compiled, hangs_up, hangs_up_after, host_and_port, oracle, part, says
from serving import Server, segments, standings, stored
from waiting import PATIENCE

from snapd_client import messages

SANITIZED = ("-O0", "-g", "-fsanitize=address,undefined", "-fno-sanitize-recover=all")
# Longer than the reply to any status.
VALUE = bytes(range(256)) * 15 + b"end"
OK, NOT_ANSWERED, TIMED_OUT, BAD_REPLY = 0, 2, 3, 4


def strained(system, address, *steps, tries=1):
    """The result of each step of tests/strains.c, and the lines that it printed."""
    words = [compiled("strains", TOP / "tests", SANITIZED), system, *host_and_port(address), str(tries), *steps]
    run = subprocess.run(words, capture_output=True, text=True, timeout=2 * PATIENCE)
    assert (run.returncode, run.stderr) == (0, ""), run
    lines = run.stdout.splitlines()
    return [int(line.split()[1]) for line in lines if line.split()[0] in steps], lines


# ---- values that lie in the client ----

def test_a_value_that_was_read_is_stored_as_it_was_on_each_try(_, __):
    """After the first one its connection ends, with a part of an answer or none: the client tries again, or its caller
    does."""
    frame, told = messages.update(1, 4, VALUE), standings((5, False), (3, False))
    for tries, *steps in ((2, "put:1"), (2, "update:1:4"), (1, "put:1", "update:1:4"), (1, "update:1:4", "update:1:4")):
        for cut in (hangs_up, says(stored(4)[:-1], then=hangs_up)):
            asked, ends = messages.scan_some([0]), says(b"", 7 + len(frame), cut)
            if steps[0] == "put:1":
                asked, ends = asked + messages.status(), says(told, 7 + 5, says(b"", 7 + 5 + len(frame), cut))
            with Peer(says(part(0, 5, VALUE), 7, ends), says(stored(4), len(frame))) as peer:
                results, lines = strained("plain", peer.address, "get:0", *steps, tries=tries)
            assert results == [OK, *[NOT_ANSWERED] * (2 - tries), OK], lines
            assert peer.heard == [asked + frame, frame], (tries, steps)


def test_a_value_that_was_read_stands_until_the_next_read(snapd, _):
    with Server(snapd, *segments(snapd, [(0, b""), (1, VALUE)], [(0, b""), (1, b"hi")])) as server:
        steps = ["get:0", "put:1", "status", "update:0:2", "wait:1:1", "lag:1:9", "put:1", "get:1", "put:0"]
        results, lines = strained("plain", server.address, *steps)
        assert results == [OK, OK, OK, OK, OK, TIMED_OUT, OK, OK, OK], lines
        assert server.scan() == [(3, VALUE), (3, VALUE)]


# ---- what the system does ----

def test_bytes_that_pass_one_by_one_and_signals_change_no_answer(_, __):
    for system in ("short", "interrupted"):
        model = oracle.Model(2)
        with oracle.Server(model) as server:
            results, lines = strained(
                system, server.address, "fill:300", "put:0", "get:0", "put:1", "status", "wait:1:1"
            )
        assert results == [OK] * 6, (system, lines)
        assert [(it.number, it.value) for it in model.segments] == [(1, b"v" * 300)] * 2, system


def test_a_signal_shortens_no_rest(_, __):
    _, lines = strained("interrupted", "127.0.0.1:1", "rest")
    assert int(lines[0].split()[2]) >= 50, lines


def test_a_peer_that_goes_away_while_it_is_sent_to_ends_no_process(_, __):
    with Peer(hangs_up) as peer:
        results, lines = strained("gone", peer.address, "fill:300", "update:0:1")
        assert results == [OK, NOT_ANSWERED] and int(lines[1].split()[3]) in (errno.EPIPE, errno.ECONNRESET), lines


def test_no_answer_has_the_systems_reason_and_an_end_has_none(_, __):
    with Peer(hangs_up_after(5)) as peer:
        assert strained("plain", peer.address, "status")[1] == [f"status {NOT_ANSWERED} 0 0"]
    # No server listens there any more.
    assert strained("plain", peer.address, "status")[1] == [f"status {NOT_ANSWERED} 0 {errno.ECONNREFUSED}"]


def test_no_program_inherits_the_connection(_, __):
    with oracle.Server(oracle.Model(1)) as server:
        results, lines = strained("plain", server.address, "status", "exec")
        assert results == [OK] and any("pipe:" in line for line in lines), lines
        assert not any("socket:" in line for line in lines), lines


def test_a_reply_that_is_longer_than_an_answer_overruns_nothing(_, __):
    for step, count, length in (
        ("status", 5, 147), ("status", 5, 66_000), ("update:0:1", 14, 147), ("update:0:1", 14, 66_000),
        ("get:0", 7, 66_000), ("get:0", 7, 66_001), ("get:0", 7, 2**32 - 1),
    ):
        with Peer(says(length.to_bytes(4, "big") + b"\x84" * min(length, 70_000), count)) as peer:
            assert strained("plain", peer.address, step)[0] == [BAD_REPLY], (step, length)


# ---- between calls ----

def test_a_call_behind_a_wait_has_its_own_time(_, __):
    model = oracle.Model(1)
    model.segments[0].number = 5
    with oracle.Server(model) as server:
        results, lines = strained("plain", server.address, "wait:0:5", "later", "status", "lag:0:9", "status")
        assert results == [OK, OK, OK, TIMED_OUT, OK], lines


def test_bytes_between_two_calls_answer_nothing(_, __):
    told = standings((5, False))
    with Peer(says(told + told), says(told)) as peer:
        assert strained("interrupted", peer.address, "status", "stray", "status", "status", tries=2)[0] == [
            OK, OK, BAD_REPLY, OK,
        ]
    # An end costs no try.
    with Peer(says(told, then=hangs_up), says(told)) as peer:
        assert strained("interrupted", peer.address, "status", "stray", "status")[0] == [OK] * 3
