"""The figures of a server and of a disk, each compared with the test's own measurement: none is too small or too
large."""

import http.client
import os
import pathlib
import re
import resource
import subprocess
import time

from http_place import SeenServer
from serving import FRESH, SCAN, STATUS, fresh, received, segments, snapshot, standings, stored, update
from test_doctor import STORES
from test_folder import folder
from test_serve_disks import Disk
from waiting import PATIENCE, comes_to, wait_until

TICK = os.sysconf("SC_CLK_TCK")


def in_process(server, file):
    return pathlib.Path(f"/proc/{server.process.pid}/{file}").read_text()


def kilobytes(server, name):
    """The system's figure of the memory, in bytes."""
    return int(re.search(rf"^{name}:\s+(\d+) kB$", in_process(server, "status"), re.M)[1]) * 1024


def processors(server):
    """The time that it took of processors, in seconds, to the tick."""
    fields = in_process(server, "stat").rpartition(")")[2].split()
    return (int(fields[11]) + int(fields[12])) / TICK


def between(before, found, behind, slack=0.0):
    assert before - slack <= found <= behind + slack, (before, found, behind)


def test_times_of_a_server(snapd, _):
    """How long it has run, when it began and what it took of processors, in both documents."""
    asked = time.monotonic(), time.time()
    with SeenServer(snapd, *fresh(snapd, 2)) as server:
        there = time.monotonic(), time.time()
        for number in range(1, 400):
            server.ask(update(0, number, b"v"), stored(number))
        # It takes more than a second, so that seconds count, too.
        with server.connect() as stream:
            while processors(server) < 1.1:
                stream.sendall(SCAN * 200)
                received(stream, 200 * len(snapshot((399, b"v"), (0, b""))))
        time.sleep(1.2)
        least, took = time.monotonic() - there[0], processors(server)
        metrics, stats = server.metrics(), server.document("/stats")
        most, now = time.monotonic() - asked[0], time.time()
        between(least, float(metrics["snapd_uptime_seconds"]), most)
        between(least, stats["uptime_milliseconds"] / 1000, most, 0.001)
        between(asked[1], float(metrics["process_start_time_seconds"]), there[1], 0.001)
        between(now - most, stats["now_milliseconds"] / 1000, now, 0.001)
        assert took > 0
        between(took, float(metrics["process_cpu_seconds_total"]), processors(server), 2 / TICK)


def test_memory_and_descriptors_of_a_server(snapd, _):
    """Compared with the system's figures of the process, while nothing changes; the limits are those that it was
    started with."""
    with SeenServer(snapd, *fresh(snapd, 2), scanners=3, descriptors=300) as server, server.connect() as client:
        client.sendall(STATUS)
        # The very connection that is asked by is open while the descriptors are counted.
        looking = http.client.HTTPConnection(*server.seen_at, timeout=PATIENCE)

        def look():
            looking.request("GET", "/metrics")
            lines = looking.getresponse().read().decode().splitlines()
            return dict(it.rsplit(" ", 1) for it in lines if not it.startswith("#"))

        look()
        before = kilobytes(server, "VmRSS"), kilobytes(server, "VmSize"), server.descriptors()
        found = look()
        behind = kilobytes(server, "VmRSS"), kilobytes(server, "VmSize"), server.descriptors()
        slack = 256 * 1024
        between(
            min(before[0], behind[0]), int(found["process_resident_memory_bytes"]), max(before[0], behind[0]), slack
        )
        between(min(before[1], behind[1]), int(found["process_virtual_memory_bytes"]), max(before[1], behind[1]), slack)
        assert found["process_resident_memory_bytes"] == found["snapd_resident_memory_bytes"]
        # (a thread may hold one more for a moment)
        assert int(found["process_open_fds"]) in (before[2], behind[2]), (before, found["process_open_fds"], behind)
        assert found["process_max_fds"] == "300"
        # Less what it needs itself: for its streams, files, workers and browsers.
        assert (
            found["snapd_connections_max"] == str(300 - 16 - 2 - 2 * 3 - 68) and found["snapd_connections_open"] == "1"
        )
        looking.close()
    with SeenServer(snapd, *fresh(snapd, 1), more=("--clients-max", 9)) as server:
        assert server.metrics()["snapd_connections_max"] == "9"
        assert server.metrics()["process_max_fds"] == str(resource.getrlimit(resource.RLIMIT_NOFILE)[0])


def test_sums_and_buckets_of_stores(snapd, _):
    """On a disk each of whose waits takes 20 ms at least: what the client measured of each update is the most that its
    store took."""
    disk = Disk(snapd)
    wait, count = 0.02, 20
    with SeenServer(snapd, *segments(snapd, FRESH, FRESH), env=disk.env) as server:
        disk.says(f"S1 sync rest {int(wait * 10**6)}")
        measured = []
        for number in range(1, count + 1):
            began = time.monotonic()
            server.ask(update(1, number, b"v"), stored(number))
            measured.append(time.monotonic() - began)
        found = server.metrics()
        total = {
            it: float(found[f'snapd_{it}_seconds_sum{{segment="1"}}']) for it in ("store", "value_wait", "gate_wait")
        }
        between(2 * count * wait, total["store"], sum(measured))
        between(count * wait, total["value_wait"], total["store"] - count * wait)
        between(count * wait, total["gate_wait"], total["store"] - total["value_wait"])
        for name, least in (("store", 2 * wait), ("value_wait", wait), ("gate_wait", wait)):
            bounds = {
                key.split('"')[-2]: int(it)
                for key, it in found.items()
                if key.startswith(f'snapd_{name}_seconds_bucket{{segment="1"')
            }
            assert len(bounds) == 22 and bounds["+Inf"] == count
            for bound, within in bounds.items():
                assert within >= sum(it <= float(bound) for it in measured), (name, bound, within, measured)
                assert within == 0 or float(bound) >= least, (name, bound, within)
        idle = server.document("/stats")["segments"][0]
        assert sum(idle["store"]["counts"]) == idle["store"]["total_nanoseconds"] == idle["updates"] == 0


def test_half_and_nearly_all_of_the_stores_of_a_folder(snapd, _):
    """Where some of two hundred stores take long: as many take no longer than is said, which the whole time shows,
    and no fewer."""
    disk = Disk(snapd)
    place, slow = folder(snapd, 1), 0.15
    disk.says(f"tmp sync rest {int(slow * 10**6)}")
    began = time.monotonic()
    doctor = subprocess.Popen(
        [snapd.path, "doctor", "D", "--measure"], cwd=snapd.folder, stdout=subprocess.PIPE,
        env={**os.environ, **disk.env},
    )
    wait_until(lambda: any(it.name.endswith("tmp") for it in place.iterdir()), "the file of the stores")
    # Three stores or four of two waits each.
    time.sleep(8 * slow)
    disk.says()
    output = doctor.communicate(timeout=PATIENCE)[0].decode()
    whole = time.monotonic() - began
    half, late = (int(it) / 10**6 for it in STORES.search(output).groups())
    # A hundred took no less than the half, and the others had the rest of the time.
    assert 0 < half and 100 * half + 4 * slow <= whole, (output, whole)
    between(2 * slow, late, whole)
    comes_to([], lambda: [it.name for it in place.iterdir() if it.name.endswith("tmp")])


def test_the_history_of_a_known_course(snapd, _):
    """A sample about each second, the oldest first, each with all that was counted up to then;
    rest and work are seen where they were."""
    with SeenServer(snapd, *segments(snapd, FRESH, FRESH)) as server:
        samples = lambda: server.document("/history")["samples"]  # noqa: E731
        comes_to(True, lambda: len(samples()) >= 2)
        for number in range(1, 31):
            server.ask(update(number % 2, (number + 1) // 2, b"v"), stored((number + 1) // 2))
        for _ in range(5):
            server.ask(SCAN, snapshot((15, b"v"), (15, b"v")))
        reached, began = len(samples()), time.monotonic()
        comes_to(True, lambda: len(samples()) >= reached + 3)
        took = time.monotonic() - began
        found, stats = samples(), server.document("/stats")
        times = [it["uptime_milliseconds"] for it in found]
        rests = [late - early for early, late in zip(times, times[1:])]
        assert (
            2 < took and all(it >= 1_000 for it in rests) and times[-1] <= stats["uptime_milliseconds"]
        ), (took, times)
        # One for each second, except for those that a busy machine was late with.
        between((len(found) - 1) * 1_000, stats["uptime_milliseconds"], (len(found) + 1) * 1_000 + took * 500)
        counts = [sum(it["store_counts"]) for it in found]
        assert counts[:2] == [0, 0] and counts[-1] == 30 and counts == sorted(counts), counts
        assert [it["scans"] for it in found[:2]] == [0, 0] and found[-1]["scans"] == 5
        both = [sum(pair) for pair in zip(*(it["store"]["counts"] for it in stats["segments"]))]
        assert found[-1]["store_counts"] == both, (found[-1], both)
        server.ask(STATUS, standings((15, False), (15, False)))
