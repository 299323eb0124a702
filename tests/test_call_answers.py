"""How a call's answer is printed, as text and as JSON, and how long it is waited for."""

import base64
import errno
import json
import socket
import threading
import time

from serving import FRESH, Server, fresh, free_port, segments
from test_serve_disks import TWO, Disk

# Values that are printed as text, with how; and those that aren't.
TEXTS = [(b"", '""'), (b"step 100\n", '"step 100\\n"'), ("20 °C, né\r\n\t".encode(), '"20 °C, né\\r\\n\\t"'),
         (b'a "b" \\', '"a \\"b\\" \\\\"'), ("\U0001f40c".encode(), '"\U0001f40c"')]
OTHERS = [b"\x1b[31mred", b"\x00", b"\x7f", b"\xff\xfe", "\u009b31m".encode(), "a\u0085b".encode(), b"\xc3"]


def call(snapd, server, *words):
    return snapd("call", server.address, *words)


def document(snapd, server, *words):
    """The document that a call prints, which is one line."""
    run = call(snapd, server, *words)
    assert run.status == 0 and run.errors == "" and run.output.count(b"\n") == 1 and run.output.endswith(b"\n"), run
    return json.loads(run.output)


def put_all(snapd, server, values):
    for segment, value in enumerate(values):
        snapd("call", server.address, "put", segment, stdin=value).gave(0, "stored 1\n")


# ---- text ----

def test_values_are_read_as_text(snapd, _):
    """Printable ones between quotes, and each on one line; the others in hexadecimal digits."""
    with Server(snapd, *fresh(snapd, len(TEXTS) + len(OTHERS))) as server:
        put_all(snapd, server, [it for it, _text in TEXTS] + OTHERS)
        lines = [f"segment {i} number 1 text {text}\n" for i, (_value, text) in enumerate(TEXTS)]
        lines += [f"segment {i} number 1 value {value.hex()}\n" for i, value in enumerate(OTHERS, len(TEXTS))]
        call(snapd, server, "scan", "--text").gave(0, "".join(lines).encode())
        call(snapd, server, "part", "0042", "--text").gave(0, (lines[1] + lines[6]).encode())
        call(snapd, server, "status", "--text").gave(0, call(snapd, server, "status").output)
        call(snapd, server, "health", "--text").gave(0, "healthy\n")
        assert json.loads(lines[2].partition(" text ")[2]) == TEXTS[2][0].decode()


# ---- JSON ----

def test_answers_are_documents(snapd, _):
    """A reader of JSON gets what is there, bytes that are no text too."""
    values = [it for it, _text in TEXTS] + OTHERS
    with Server(snapd, *fresh(snapd, len(values))) as server:
        put_all(snapd, server, values)
        told = document(snapd, server, "scan", "--json")
        entries = told["segments"]
        assert [(it["segment"], it["number"]) for it in entries] == [(i, 1) for i in range(len(values))]
        assert [it["text"].encode() if "text" in it else base64.b64decode(it["base64"]) for it in entries] == values
        part = document(snapd, server, "--json", "part", "0042")["segments"]
        assert part == [entries[1], entries[6]]
        status = document(snapd, server, "status", "--json")["segments"]
        assert status == [{"segment": i, "number": 1, "fenced": False} for i in range(len(values))]
        call(snapd, server, "health", "--json").gave(0, '{"healthy":true}\n')


def test_a_document_of_health_ends_as_its_lines(snapd, _):
    disk = Disk(snapd)
    with Server(snapd, *segments(snapd, TWO, FRESH), env=disk.env) as server:
        disk.says(f"S1 sync fail {errno.EIO}")
        snapd("call", server.address, "put", 1, "--value", "x").gave(3, errors="snapd: refused 13 DeviceFailed 0\n")
        call(snapd, server, "health", "--json").gave(3, '{"healthy":false,"fenced":[1]}\n')


def test_a_refusal_and_a_fault_are_no_documents(snapd, _):
    with Server(snapd, *fresh(snapd, 2)) as server:
        call(snapd, server, "part", "0004", "--json").gave(3, errors="snapd: refused 2 NoSegment 2\n")
    call(snapd, server, "scan", "--json").failed_with(1, "no connection")


# ---- the time ----

def silent():
    """A listener that takes connections and says nothing."""
    listener = socket.create_server(("127.0.0.1", 0))
    return listener, f"127.0.0.1:{listener.getsockname()[1]}"


def took(snapd, *words, **how):
    began = time.monotonic()
    ran = snapd(*words, **how)
    return ran, time.monotonic() - began


def test_a_call_ends_with_its_time(snapd, _):
    """On a peer that says nothing; all tries together have the time, and the line says whose it was."""
    listener, address = silent()
    with listener:
        for more in ([], ["--tries", "10"]):
            ran, seconds = took(snapd, "call", address, "scan", "--timeout", "1", *more)
            first, second = ran.failed_with(1).errors.splitlines()
            assert first.startswith(f"snapd: {address}: "), first
            assert second == f"snapd: {address}: there was no answer within 1 s (--timeout)"
            assert 0.9 < seconds < 8, seconds


def test_a_peer_that_trickles_is_given_up(snapd, _):
    """A byte now and then is no answer."""
    listener, address = silent()

    def trickle():
        peer, _address = listener.accept()
        with peer:
            peer.sendall(bytes([0, 0, 255, 0]))
            while True:
                try:
                    peer.sendall(b"\x82")
                except OSError:
                    return
                time.sleep(0.2)

    thread = threading.Thread(target=trickle, daemon=True)
    with listener:
        thread.start()
        ran, seconds = took(snapd, "call", address, "scan", "--timeout", "2")
        ran.failed_with(1, "no answer within 2 s")
        assert 1.9 < seconds < 10, seconds
    thread.join(10)


def test_a_put_has_one_time_for_both_its_requests(snapd, _):
    listener, address = silent()
    with listener:
        ran, seconds = took(snapd, "call", address, "put", "0", "--value", "x", "--timeout", "1", "--tries", "3")
        ran.failed_with(1, "no answer within 1 s")
        assert 0.9 < seconds < 8, seconds


def test_the_time_doesnt_begin_before_the_connection(snapd, _):
    """The writer of the value may take longer."""
    with Server(snapd, *fresh(snapd, 1)) as server:
        reader, writer = socket.socketpair()

        def feed():
            time.sleep(1.5)
            writer.sendall(b"late")
            writer.close()

        thread = threading.Thread(target=feed)
        thread.start()
        snapd("call", server.address, "put", "0", "--timeout", "1", stdin=reader).gave(0, "stored 1\n")
        thread.join()
        reader.close()


def test_an_answer_in_time_is_as_without(snapd, _):
    with Server(snapd, *fresh(snapd, 1)) as server:
        snapd("call", server.address, "put", 0, "--value", "x", "--timeout", 86400).gave(0, "stored 1\n")
        snapd("call", server.address, "get", 0, "--timeout", 60).gave(0, b"x")
    port = free_port()
    ran, seconds = took(snapd, "call", f"127.0.0.1:{port}", "scan", "--timeout", "60")
    ran.failed_with(1, "no connection")
    assert "--timeout)" not in ran.errors and seconds < 30
