"""What a client in Python, its segments and its exceptions say of themselves: the server's address, and the segment."""

import pickle

from clients import BOTH, Peer, oracle, raised, says
from waiting import PATIENCE

import snapd_client
from snapd_client import aio

STRANGE = bytes.fromhex("00000001 00")


def told(error, text, address, segment):
    """Fails unless the error says so, also once it has come from another process."""
    for it in (error, pickle.loads(pickle.dumps(error))):
        assert (repr(it), it.address, it.segment) == (text, address, segment), it
        assert str(it) == str(error)


def test_clients_and_segments_name_the_server(_, __):
    for make, word in ((snapd_client.Client, "snapd_client.client.Client"), (aio.Client, "snapd_client.aio.Client")):
        for address in ("127.0.0.1:7070", "unix:/s"):
            assert repr(make(address)) == f"{word}('{address}')"
        assert repr(make(("::1", 7070))) == f"{word}('::1:7070')"
        assert repr(make("a:1").segment(3)) == f"{word}('a:1').segment(3)"


def test_exceptions_name_the_server_and_the_segment(_, __):
    with oracle.Server(oracle.Model(2)) as server:
        for make in BOTH:
            with make(server.address) as client:
                at, named = server.address, f"address='{server.address}'"
                told(raised(lambda: client.update(1, 7, b"")), f"OutOfStep(0, {named}, segment=1)", at, 1)
                told(raised(client.segment(2).get), f"NoSegment(2, {named}, segment=2)", at, 2)
                told(raised(lambda: client.segment(3).put(b"")), f"NoSegment(2, {named}, segment=3)", at, 3)
                told(raised(lambda: client.scan(segments=[0, 2])), f"NoSegment(2, {named})", at, None)
                told(raised(lambda: client.wait({2: 1}, timeout=PATIENCE)), f"NoSegment(2, {named}, segment=2)", at, 2)
                for wanted, segment in (({1: 5}, 1), ({0: 0, 1: 5}, None)):
                    error = raised(lambda: client.wait(wanted, timeout=0.01))
                    assert type(error) is snapd_client.WaitTimedOut and named in repr(error), repr(error)
                    assert (error.address, error.segment) == (at, segment)


def test_faults_name_the_server_and_the_segment(_, __):
    for make, peer in Peer.each(says(STRANGE, 16), says(STRANGE)):
        with peer, make(peer.address) as client:
            text = f"BadReply('it begins like no reply', address='{peer.address}'"
            told(raised(lambda: client.update(1, 1, b"hi")), f"{text}, segment=1)", peer.address, 1)
            told(raised(client.scan), f"{text})", peer.address, None)
    for make in BOTH:
        with make("unix:none", tries=1) as client:
            error = raised(client.segment(0).get)
            told(error, f"NotAnswered({str(error)!r}, address='unix:none', segment=0)", "unix:none", 0)
            assert str(error).startswith("unix:none: no answer after 1 tries: ")


def test_an_exception_of_nobodys_call_names_nothing(_, __):
    assert repr(snapd_client.NoSegment(2)) == "NoSegment(2)" and snapd_client.Refused().address is None
