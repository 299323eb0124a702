"""`snapd serve --http`: its replies to browsers and monitors, number for number, and that none of them blocks another
client."""

import base64
import contextlib
import email.utils
import errno
import os
import re
import shutil
import socket
import subprocess
import threading
import time

from http_place import SeenServer
from program import Skipped
from serving import FRESH, LOOPBACK, MALFORMED, OVER_THE_LIMIT, SCAN, STATUS, TOO_LARGE, Server, frame, fresh, free_port
from serving import open_files, received, refused, segments, snapshot, standings, stored, to_its_end, update
from test_serve_disks import TWO, Disk
from waiting import PATIENCE, comes_to

PATHS = b"Nothing is here. There is: / /metrics /health /livez /readyz /scan /status /stats /history\n"
EACH = (
    "/", "/metrics", "/health", "/livez", "/readyz", "/scan", "/status", "/stats", "/history", "/board.js",
    "/board.css",
)


def part(mask):
    return frame(b"\x04" + mask.to_bytes(2, "big"))


def asked(server, *pairs):
    """Sends each request on one connection, and wants its reply's frame. The bytes sent and received."""
    with server.connect() as stream:
        for request, wanted in pairs:
            stream.sendall(request)
            assert received(stream, len(wanted)) == wanted, wanted
    return sum(len(it) for it, _ in pairs), sum(len(it) for _, it in pairs)


def numbers(samples, name):
    """The samples of this name, by the value of their last label."""
    found = {key.split('"')[-2]: value for key, value in samples.items() if key.startswith(name + "{")}
    assert found, name
    return {key: int(value) for key, value in found.items()}


# ---- figures ----

def test_metrics_are_those_of_a_known_list_of_requests(snapd, _):
    """Each kind of request, each refusal, bytes to the byte, updates and repeats by segment, and nothing else."""
    disk = Disk(snapd)
    with SeenServer(snapd, *segments(snapd, TWO, FRESH, FRESH), env=disk.env) as server:
        first = server.metrics()
        for name in ("snapd_requests_total", "snapd_refusals_total", "snapd_updates_total", "snapd_repeats_total"):
            assert not any(numbers(first, name).values()), name
        assert (
            first["snapd_received_bytes_total"]
            == first["snapd_sent_bytes_total"]
            == first["snapd_scan_looks_total"]
            == "0"
        )
        disk.says(f"S2 write fail {errno.ENOSPC}")
        whole = snapshot((2, b"new"), (1, b"x" * 4080), (0, b""))
        named = frame(bytes([0x84, 1, 1]) + (1).to_bytes(8, "big") + (4080).to_bytes(4, "big") + b"x" * 4080)
        sent, got = asked(
            server,
            (update(0, 2, b"new"), stored(2)),
            (update(0, 2, b"new"), stored(2)),
            (update(0, 2, b"new"), stored(2)),
            (update(1, 1, b"x" * 4080), stored(1)),
            (update(0, 2, b"other"), refused(4, 2)),
            (update(0, 9), refused(5, 2)),
            (update(7, 1), refused(2, 3)),
            (update(1, 2, b"x" * 4081), refused(3, 4081)),
            (update(2, 1, b"lost"), refused(13, 0)),
            (update(2, 1, b"lost"), refused(6, 0)),
            (SCAN, whole),
            (SCAN, whole),
            (part(2), named),
            (part(8), refused(2, 3)),
            (STATUS, standings((2, False), (1, False), (0, True))),
        )
        found = server.metrics()
        kinds = {key.split('"')[1]: value for key, value in found.items() if key.startswith("snapd_requests_total")}
        assert kinds == {"update": "10", "scan": "2", "part": "2", "status": "1"}, kinds
        refusals = {
            key.split('"')[1]: int(value) for key, value in found.items() if key.startswith("snapd_refusals_total")
        }
        wanted = {"2": 2, "3": 1, "4": 1, "5": 1, "6": 1, "13": 1}
        assert refusals == {str(number): wanted.get(str(number), 0) for number in range(1, 18)}, refusals
        assert (int(found["snapd_received_bytes_total"]), int(found["snapd_sent_bytes_total"])) == (sent, got)
        assert numbers(found, "snapd_updates_total") == {"0": 1, "1": 1, "2": 0}
        assert numbers(found, "snapd_repeats_total") == {"0": 2, "1": 0, "2": 0}
        assert numbers(found, "snapd_segment_number") == {"0": 2, "1": 1, "2": 0}
        assert numbers(found, "snapd_segment_fenced") == {"0": 0, "1": 0, "2": 1}
        assert int(found["snapd_connections_total"]) == 1
        comes_to("0", lambda: server.metrics()["snapd_connections_open"])
        # A scan of three segments without writers takes two looks at each, and one of one segment two.
        assert found["snapd_scan_looks_total"] == str(6 + 6 + 2), found["snapd_scan_looks_total"]


def test_frames_that_are_no_requests_are_among_the_refusals(snapd, _):
    """One that is malformed and one above the limit, beside a request that is refused,
    and by connections of their own."""
    no_request = frame(b"\x03\x00")
    with SeenServer(snapd, *segments(snapd, FRESH)) as server:
        server.ask(
            no_request + update(0, 9) + no_request + OVER_THE_LIMIT, MALFORMED + refused(5, 0) + MALFORMED + TOO_LARGE
        )
        server.ask(OVER_THE_LIMIT, TOO_LARGE)
        found = server.metrics()
        refusals = {
            key.split('"')[1]: int(value) for key, value in found.items() if key.startswith("snapd_refusals_total")
        }
        assert {number: count for number, count in refusals.items() if count} == {"1": 2, "5": 1, "15": 2}, refusals
        assert sum(int(value) for key, value in found.items() if key.startswith("snapd_requests_total")) == 1


def test_stores_are_timed(snapd, _):
    """Each histogram counts each store once, its buckets add up and end in all of them, and its bounds are the
    documented ones."""
    with SeenServer(snapd, *fresh(snapd, 2)) as server:
        asked(server, *((update(0, number, b"v"), stored(number)) for number in range(1, 41)))
        found = server.metrics()
        bounds = [f"{16 * 2**place / 10**6:.6f}".rstrip("0") for place in range(21)] + ["+Inf"]
        for name in ("snapd_store_seconds", "snapd_value_wait_seconds", "snapd_gate_wait_seconds"):
            buckets = [int(found[f'{name}_bucket{{segment="0",le="{bound}"}}']) for bound in bounds]
            assert buckets == sorted(buckets) and buckets[-1] == 40, (name, buckets)
            assert found[f'{name}_count{{segment="0"}}'] == "40" and found[f'{name}_count{{segment="1"}}'] == "0"
        total, value, gate = (float(found[f'{name}_sum{{segment="0"}}']) for name in
                              ("snapd_store_seconds", "snapd_value_wait_seconds", "snapd_gate_wait_seconds"))
        assert 0 < value + gate <= total < PATIENCE, (total, value, gate)
        age = float(found['snapd_segment_age_seconds{segment="0"}'])
        assert 0 <= age < PATIENCE and 'snapd_segment_age_seconds{segment="1"}' not in found


def test_a_monitor_takes_the_metrics(snapd, _):
    """`promtool` finds nothing to say of them."""
    if not shutil.which("promtool"):
        raise Skipped("promtool isn't here (Debian's package prometheus)")
    with SeenServer(snapd, *fresh(snapd, 3)) as server:
        asked(server, (update(1, 1, b"v"), stored(1)), (SCAN, snapshot((0, b""), (1, b"v"), (0, b""))))
        checked = subprocess.run(
            ["promtool", "check", "metrics"], input=server.get("/metrics")[2], capture_output=True, check=False
        )
        assert (checked.returncode, checked.stdout, checked.stderr) == (0, b"", b""), checked


def test_sixteen_segments_and_fifteen_workers_are_summed(snapd, _):
    """Each worker counts by itself, and the sum is reported."""
    with SeenServer(snapd, *fresh(snapd, 16), scanners=15) as server:
        for _ in range(45):
            server.ask(STATUS, standings(*[(0, False)] * 16))
        found = server.metrics()
        assert found['snapd_requests_total{kind="status"}'] == "45" and found["snapd_connections_total"] == "45"
        assert len(numbers(found, "snapd_segment_number")) == 16


# ---- health, and documents ----

def test_health_is_told_by_the_status(snapd, _):
    """200 and healthy, until a disk fails; then 503 and the segments that are fenced."""
    disk = Disk(snapd)
    with SeenServer(snapd, *segments(snapd, TWO, FRESH), env=disk.env) as server:
        assert server.get("/health")[::2] == (200, b'{"healthy":true}\n')
        disk.says(f"S1 sync fail {errno.EIO}")
        server.ask(update(1, 1, b"x"), refused(13, 0))
        assert server.get("/health")[::2] == (503, b'{"healthy":false,"fenced":[1]}\n')


def test_it_lives_and_is_ready_until_each_segment_is_fenced(snapd, _):
    """`/readyz` is 200 where one of two is fenced and `/health` is 503, and 503 where both are;
    `/livez` is 200 all along."""
    disk = Disk(snapd)
    with SeenServer(snapd, *segments(snapd, TWO, FRESH), env=disk.env) as server:
        statuses = lambda: [server.get(path)[0] for path in ("/livez", "/readyz", "/health")]  # noqa: E731
        assert statuses() == [200, 200, 200]
        disk.says(f"S1 sync fail {errno.EIO}")
        server.ask(update(1, 1, b"x"), refused(13, 0))
        assert statuses() == [200, 200, 503]
        disk.says(f"S0 write fail {errno.EIO}")
        server.ask(update(0, 2, b"x"), refused(13, 1))
        assert statuses() == [200, 503, 503]
        assert server.get("/livez")[2] == b"ok\n" and server.get("/readyz")[2] == b"each segment is fenced\n"
        assert (
            server.get("/livez")[1]["content-type"]
            == server.get("/readyz")[1]["content-type"]
            == "text/plain; charset=utf-8"
        )


def test_each_answer_says_when_it_was_made(snapd, _):
    """A date as HTTP writes it, of the time between the request and its answer: also of what isn't there,
    and of a refused method."""
    with SeenServer(snapd, *segments(snapd, TWO)) as server:
        for method, path in [("GET", it) for it in EACH] + [("HEAD", "/scan"), ("GET", "/nothing"), ("PUT", "/scan")]:
            before = int(time.time())
            told = server.get(path, method)[1]["date"]
            found = email.utils.parsedate_to_datetime(told)
            assert (
                email.utils.format_datetime(found, usegmt=True) == told and before <= found.timestamp() <= time.time()
            ), (path, told)


def test_segments_have_the_names_of_their_files(snapd, _):
    """Without folder and ending: in the document, and as a label of a metric, where a quote stays within it."""
    files = ["a/segment-01.seg", 'b "c".seg', "d"]
    for name, made in zip(files, segments(snapd, TWO, FRESH, FRESH)):
        snapd.file(name).parent.mkdir(exist_ok=True)
        snapd.file(made).rename(snapd.file(name))
    with SeenServer(snapd, *files) as server:
        told = server.document("/stats")["segments"]
        assert [(it["file"], it["name"]) for it in told] == list(zip(files, ["segment-01", 'b "c"', "d"])), told
        lines = [it for it in server.get("/metrics")[2].decode().splitlines() if it.startswith("snapd_segment_info")]
        names = ["segment-01", 'b \\"c\\"', "d"]
        assert (
            lines == [f'snapd_segment_info{{segment="{place}",name="{name}"}} 1' for place, name in enumerate(names)]
        ), lines


def test_the_version_is_that_of_the_program(snapd, _):
    version = snapd("--version").output.split()[1].decode()
    with SeenServer(snapd, *fresh(snapd, 1)) as server:
        assert server.document("/stats")["version"] == version
        metrics = server.get("/metrics")[2].decode()
        for name in ("snapd_info", "snapd_build_info"):
            assert f'\n{name}{{version="{version}"}} 1\n' in metrics, name


def test_lines_that_the_log_loses_are_counted(snapd, _):
    """On an output that takes nothing: the lines of the start, and one for the end of each connection."""
    into_full = ("sh", "-c", 'exec "$@" 2>/dev/full', "sh")
    with SeenServer(snapd, *fresh(snapd, 1), port=free_port(), before=into_full, more=("--log", "debug")) as server:
        lost = lambda: int(server.metrics()["snapd_log_lost_lines_total"])  # noqa: E731
        comes_to(True, lambda: lost() > 0)
        time.sleep(0.5)
        before = lost()
        for _ in range(3):
            server.ask(STATUS, standings((0, False)))
        comes_to(before + 3, lost)


def test_documents_are_those_of_a_call(snapd, _):
    """`/scan` and `/status` are what `snapd call --json` prints; a value that isn't text is in base64."""
    with SeenServer(snapd, *segments(snapd, TWO, [(0, b""), (1, b"\x00\xff")])) as server:
        for path, request in (("/scan", "scan"), ("/status", "status")):
            told = snapd("call", server.address, request, "--json")
            assert server.get(path)[2] == told.output and told.status == 0, (path, told)
        assert server.document("/scan")["segments"][1] == {
            "segment": 1, "number": 1, "base64": base64.b64encode(b"\x00\xff").decode(),
        }


def test_statistics_say_what_the_metrics_say(snapd, _):
    """The same numbers as one document, and what the server is."""
    files = fresh(snapd, 2)
    with SeenServer(snapd, *files) as server:
        asked(
            server, (update(1, 1, b"abc"), stored(1)), (update(1, 1, b"abc"), stored(1)), (update(1, 3), refused(5, 1)),
            (STATUS, standings((0, False), (1, False))),
        )
        told = server.document("/stats")
        assert told["requests"] == {"update": 3, "scan": 0, "part": 0, "status": 1}
        assert [it["count"] for it in told["refusals"] if it["count"]] == [1] and len(told["refusals"]) == 17
        first, second = told["segments"]
        assert (first["file"], second["file"]) == tuple(files) and first["age_milliseconds"] is None
        assert (second["number"], second["fenced"], second["updates"], second["repeats"]) == (1, False, 1, 1)
        assert sum(second["store"]["counts"]) == 1 and second["age_milliseconds"] >= 0
        assert told["bounds_microseconds"] == [16 * 2**place for place in range(21)]
        assert told["addresses"] == [LOOPBACK] and told["uptime_milliseconds"] >= 0 and told["resident_bytes"] > 10**5


def test_head_and_what_is_not_there(snapd, _):
    """HEAD has the same head and no content; other methods and paths get their status, and nothing changes."""
    with SeenServer(snapd, *segments(snapd, TWO)) as server:
        for path in EACH:
            status, headers, content = server.get(path)
            bare_status, bare_headers, nothing = server.get(path, "HEAD")
            assert status == bare_status == 200 and content and not nothing, path
            assert (
                headers["content-type"] == bare_headers["content-type"]
                and headers["x-content-type-options"] == "nosniff"
            )
            assert server.get(path + "?a=b")[0] == 200
        for method in ("POST", "PUT", "DELETE", "PATCH", "OPTIONS", "TRACE", "update"):
            status, headers, _ = server.get("/scan", method)
            assert (status, headers["allow"]) == (405, "GET, HEAD"), method
        for path in ("/x", "/scan/", "//", "/../etc/passwd", "/%2e%2e", "/Scan"):
            assert server.get(path)[::2] == (404, PATHS), path
        assert server.scan() == [(1, b"hi")]


# The kind of what each path answers, and what the page may load.
JSON, TEXT = "application/json", "text/plain; charset=utf-8"
KINDS = {
    "/": "text/html; charset=utf-8", "/board.css": "text/css; charset=utf-8",
    "/board.js": "text/javascript; charset=utf-8", "/metrics": "text/plain; version=0.0.4; charset=utf-8",
    **dict.fromkeys(("/livez", "/readyz", "/nothing"), TEXT),
    **dict.fromkeys(("/health", "/scan", "/status", "/stats", "/history"), JSON),
}
POLICY = (
    "default-src 'none'; style-src 'self'; script-src 'self'; connect-src 'self'; img-src data:; base-uri 'none'; "
    "form-action 'none'; frame-ancestors 'none'"
)


def test_each_answer_has_its_headers(snapd, _):
    """All of them but the date and the length. The page has two more, and a refused method says which are taken."""
    of_page = {"content-security-policy": POLICY, "referrer-policy": "no-referrer"}
    with SeenServer(snapd, *fresh(snapd, 1)) as server:
        assert set(EACH) <= set(KINDS)
        asked = [("GET", path, kind, of_page if path == "/" else {}) for path, kind in KINDS.items()]
        for method, path, kind, more in [*asked, ("PUT", "/scan", TEXT, {"allow": "GET, HEAD"})]:
            _, headers, content = server.get(path, method)
            assert headers.pop("date") and headers.pop("content-length") == str(len(content)), (path, headers)
            assert headers == {
                "content-type": kind, "cache-control": "no-store", "x-content-type-options": "nosniff",
                "cross-origin-resource-policy": "same-origin", **more,
            }, (method, path, headers)
            assert content.endswith(b"\n"), (path, content[-40:])
        assert server.get("/scan", "PUT")[2] == b"Only GET and HEAD are answered.\n"


# ---- places ----

def test_where_it_can_t_listen(snapd, _):
    """A port in use, an unknown name and words that are no address have messages of their own, and no file is
    touched."""
    files = fresh(snapd, 1)
    before = snapd.file(files[0]).read_bytes()
    with socket.create_server(("127.0.0.1", 0)) as taken:
        address = "127.0.0.1:{}".format(taken.getsockname()[1])
        snapd("serve", LOOPBACK, *files, "--http", address).failed_with(
            1, f"{address}: can't listen there for HTTP: ", ": give an address of this machine whose port is free")
    own = f"127.0.0.1:{free_port()}"
    snapd("serve", own, *files, "--http", own).failed_with(
        2, f"{own}: clients and HTTP can't have one address: give --http another port")
    snapd("serve", LOOPBACK, *files, "--http", "unix:S").failed_with(
        1, "unix:S: HTTP is answered at HOST:PORT: give for example 127.0.0.1:7080")
    snapd("serve", LOOPBACK, *files, "--http", "127.0.0.1").failed_with(1, "127.0.0.1: ", "the port is missing")
    snapd("serve", LOOPBACK, *files, "--http", LOOPBACK, "--scanners", 16).failed_with(
        2, "--http takes a scanner of its own: give --scanners 15 or fewer")
    assert snapd.file(files[0]).read_bytes() == before


def test_none_is_there_where_none_was_asked_for(snapd, _):
    """Without the word no port more is open, and nothing is said of it."""
    with Server(snapd, *fresh(snapd, 1)) as server:
        listening = sum(it.startswith("socket:") for it in open_files(server.process.pid))
        assert listening == 1 and not server.logged(target="http")


def test_a_server_with_a_last_connection_ends(snapd, _):
    """Browsers that are still there don't keep it."""
    with SeenServer(snapd, *fresh(snapd, 1), connections=1) as server:
        with server.call_http() as browser:
            browser.sendall(b"GET /metrics HTTP/1.1\r\nhost: x\r\n\r\n")
            assert browser.recv(100).startswith(b"HTTP/1.1 200 OK\r\n")
            server.ask(STATUS, standings((0, False)))
            assert server.end().gave(0, b"served 1\n", server.errors.read_text())


# ---- hostile peers ----

def answers_to(server, data):
    """All that comes back to these bytes, sent at once, up to the end of what is sent."""
    with server.call_http() as peer:
        with contextlib.suppress(OSError):
            peer.sendall(data)
            peer.shutdown(socket.SHUT_WR)
        try:
            return to_its_end(peer)
        except ConnectionResetError:
            return b"reset"


def test_whatever_comes_gets_an_answer_or_a_close(snapd, rng):
    """Requests that are none, heads without end, bodies, requests cut at each place, and noise. The server
    continues."""
    with SeenServer(snapd, *segments(snapd, TWO)) as server:
        for data, wanted in (
            (b"GET / HTTP/9.9\r\n\r\n", b"HTTP/1.1 400 "),
            (b"GET /" + b"a" * 20_000 + b" HTTP/1.1\r\n\r\n", b"HTTP/1.1 414 "),
            (b"GET / HTTP/1.1\r\n" + b"x: y\r\n" * 5_000 + b"\r\n", b"HTTP/1.1 431 "),
            (b"GET /scan HTTP/1.1\r\nhost: x\r\ntransfer-encoding: gzip\r\n\r\n", b"HTTP/1.1 "),
            (b"POST /scan HTTP/1.1\r\nhost: x\r\ncontent-length: 99999999\r\n\r\n", b"HTTP/1.1 413 "),
            (b"\x16\x03\x01\x02\x00\x01\x00\x01\xfc\x03\x03", b"HTTP/1.1 400 "),
            (update(0, 2, b"no") * 3, b"HTTP/1.1 400 "),
        ):
            answer = answers_to(server, data)
            assert answer.startswith(wanted) or answer == b"reset", (data[:60], answer[:60])
        request = b"GET /health HTTP/1.1\r\nhost: x\r\n\r\n"
        for end in range(len(request)):
            answer = answers_to(server, request[:end])
            assert answer in (b"", b"reset") or answer.startswith(b"HTTP/1.1 400 "), (end, answer)
        for _ in range(50):
            answers_to(server, rng.randbytes(rng.randrange(1, 3_000)))
        assert server.get("/health")[0] == 200 and server.scan() == [(1, b"hi")]
        server.ask(update(0, 2, b"on"), stored(2))


def test_a_request_in_pieces_and_many_in_one(snapd, _):
    """One byte at a time is a request too, and ten at once are answered in order."""
    with SeenServer(snapd, *fresh(snapd, 1)) as server:
        with server.call_http() as peer:
            for byte in b"GET /health HTTP/1.1\r\nhost: x\r\n\r\n":
                peer.sendall(bytes([byte]))
            assert received(peer, 15) == b"HTTP/1.1 200 OK"
        answer = answers_to(server, b"GET /health HTTP/1.1\r\nhost: x\r\n\r\n" * 10)
        assert answer.count(b"HTTP/1.1 200 OK\r\n") == 10 and answer.count(b'{"healthy":true}\n') == 10


def test_slow_readers_keep_nobody_from_an_answer(snapd, _):
    """More connections than there are places, none of which reads: a scrape is answered all the same,
    and updates too."""
    with SeenServer(snapd, *fresh(snapd, 2)) as server:
        with contextlib.ExitStack() as open_ones:
            for _ in range(200):
                peer = open_ones.enter_context(server.call_http())
                with contextlib.suppress(OSError):
                    peer.sendall(b"GET / HTTP/1.1\r\nhost: x\r\n\r\n" * 20)
            assert server.get("/health")[0] == 200
            server.ask(update(0, 1, b"on"), stored(1))
            assert len(server.metrics()) > 100
        descriptors = server.descriptors()
        assert descriptors < 200, descriptors


def test_all_descriptors_of_browsers_are_reserved(snapd, _):
    """A server with few descriptors takes fewer clients, and both get their answers."""
    with (
        SeenServer(snapd, *fresh(snapd, 1), scanners=1, descriptors=120) as server,
        contextlib.ExitStack() as open_ones,
    ):
        for _ in range(60):
            open_ones.enter_context(server.connect())
        for _ in range(80):
            open_ones.enter_context(server.call_http())
        assert server.get("/health")[0] == 200
        assert not server.logged("ERROR")


# ---- the page ----

def shown(url, folder, *more):
    """The document that a browser makes of the page, after it has run for a while."""
    browser = shutil.which("chromium") or shutil.which("chromium-browser") or shutil.which("google-chrome")
    if not browser:
        raise Skipped("no chromium is here (Debian's package chromium)")
    words = [
        browser, "--headless=new", "--no-sandbox", "--disable-gpu", "--disable-dev-shm-usage",
        f"--user-data-dir={folder}/profile", "--timeout=8000", "--virtual-time-budget=4000", *more, "--dump-dom", url,
    ]
    run = subprocess.run(
        words, capture_output=True, timeout=2 * PATIENCE, check=False, env={**os.environ, "HOME": str(folder)}
    )
    assert run.returncode == 0, run.stderr[-400:]
    return run.stdout.decode()


def keep_updating(server, segment, ended):
    """One writer, which updates its segment until `ended` is set."""
    with server.connect() as stream:
        for number in range(1, 10**9):
            if ended.is_set():
                return
            stream.sendall(update(segment, number, b"step %d" % number))
            assert received(stream, 13) == stored(number)


@contextlib.contextmanager
def writers(server, *segments):
    ended = threading.Event()
    threads = [threading.Thread(target=keep_updating, args=(server, it, ended)) for it in segments]
    for it in threads:
        it.start()
    try:
        yield
    finally:
        ended.set()
        for it in threads:
            it.join()


def test_the_page_shows_the_board(snapd, _):
    """By a real browser, while eight writers run: each segment's number and value, the fence, a value that is no text,
    the largest number but one to the digit, and a value of 4,080 bytes of script as text."""
    disk = Disk(snapd)
    script = (b"<script>document.title='run'</script>" * 200)[:4080]
    files = segments(snapd, *[FRESH] * 8, [(6, b""), (7, script)], [(2**63 - 3, b""), (2**63 - 2, b"\x00\xff")], FRESH)
    with SeenServer(snapd, *files, env=disk.env) as server:
        disk.says(f"S10 sync fail {errno.EIO}")
        server.ask(update(10, 1, b"x"), refused(13, 0))
        disk.says()
        with writers(server, *range(8)):
            page = shown(server.url(), snapd.folder)
        assert "document.title='run'" in page and "&lt;script&gt;" in page and "<title>run" not in page, page[:400]
        digits = page.replace(",", "").replace("\u202f", "").replace("\u00a0", "")
        assert str(2**63 - 2) in digits, page[:2000]
        assert "00ff" in page.replace(" ", "").lower() and page.count(">step ") == 8, page.count(">step ")
        assert (
            'data-mark="fenced"' in page and "Fenced: segment 10 (S10)." in page and 'data-wrong="fenced"' in page
        ), page[:2000]


def test_the_page_shows_the_minutes_before_it(snapd, _):
    """By a real browser, of a server that has run for some seconds: the course of its updates is there at once."""
    with SeenServer(snapd, *fresh(snapd, 1)) as server:
        with writers(server, 0):
            comes_to(True, lambda: len(server.document("/history")["samples"]) >= 6)
        page = shown(server.url(), snapd.folder)
        courses = [it.split() for it in re.findall(r'<polyline points="([^"]*)"', page)]
        assert len(courses) == 4 and min(map(len, courses)) >= 4, courses
        assert any(float(point.split(",")[1]) < 50 for point in courses[0]), courses[0]
        assert ">S0</small>" in page and page.count("<dt>") == 8, page[:2000]
