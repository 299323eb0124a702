"""Times `snapd` against a C program that makes the same system calls in the same order, in one run, as ratios.

    python3 bench/run.py [--folder FOLDER] [--runs N] [--json FILE]

The files lie in FOLDER, by default a fresh folder beside this repository's own files, so that they are on a disk and
not in memory. The runs of the two programs alternate; printed are both medians and the median of the ratios of each
pair. A whole process is to cost at most 1.3 times the C program's, and a store inside a process at most 1.05 times. The
same stores are timed against those of the old format, which synced three times a store, in C: where syncs are most of
the time, two thirds of it.

Then it counts events a second of a world and lines a second of a script, each also ten times as long: the cost of an
event is not to grow with their number. A script of 200 MB is to run with less than 10 MB resident. It counts the looks
of a scan, alone and beside writers.

Then it times looks, scans and updates of the memory that threads share against a C program with the same atomic steps
and copies, by the time of the processor, and counts scans a second beside writers. The largest memory is to have at
most 45 MB resident.

Last it times durable updates beside bare stores of the same segment's code, in one process, in turn, each on a file or
a device in memory of its own: the medians, and the median of the ratios of each pair. On a file an update is to cost at
most 1.05 times a store. An opening of 16 files for 16 scanners is to take at most 10 ms more than their bare syncs and
reads.

The very last are requests to a node over files in memory, by the time of the processor: how many a second, and a scan
of 16 segments of 4,080 bytes beside a plain copy of its bytes, which it is to take at most 2.5 times. Nothing is
updated between these scans, so only the first one reads values out of the registers.
"""

import argparse
import pathlib
import resource
import subprocess
import sys
import tempfile
import time

TOP = pathlib.Path(__file__).resolve().parent.parent
sys.dont_write_bytecode = True
sys.path.insert(0, str(TOP / "tests"))

import figures  # noqa: E402
import segment_file as layout  # noqa: E402
from preload import library  # noqa: E402

STORES = 200
# What is timed of the crates. `make bench` proves and builds it.
PROGRAM = str(TOP / "crates" / "try_bench" / "out" / "try_bench")
NOTED = figures.Figures()


def compiled(folder, name):
    target = folder / name
    subprocess.run(["gcc", "-O2", "-Wall", "-o", target, TOP / "bench" / f"{name}.c"], check=True)
    return target


def ratio(label, limit, timer, runs, start, program, baseline, file, value):
    """Times both on the same file, which has the bytes of `start` before each run."""
    line = [timer, str(runs), value, file, start, *program, "--", *baseline]
    run = subprocess.run(line, check=True, stdout=subprocess.PIPE, text=True)
    quarters = [int(it) / 1000 for it in run.stdout.split()]
    for of, unit, at in (("snapd", "us", 0), ("C", "us", 3), ("snapd, divided by C", "ratio", 6)):
        NOTED.keep(label, of, quarters[at : at + 3], unit, runs)
    _, mine, _, _, bare, _, _, middle, _ = quarters
    print(f"{label:<44} {mine:>9.1f} us {bare:>9.1f} us   {middle:.3f}   (aim {limit})")


def allocations(program, folder, stores):
    """The number of allocations of a run of `stores` stores."""
    count = folder / "count"
    env = {"LD_PRELOAD": library("allocations"), "ALLOCATIONS_COUNT": str(count)}
    subprocess.run([*program, folder / f"stores{stores}", str(stores)], env=env, check=True, stdout=subprocess.DEVNULL)
    return int(count.read_text())


def seconds(*line, stdin=b"", tries=5):
    """The least time of a few runs, and what the last one printed."""
    least = None
    for _ in range(tries):
        began = time.perf_counter()
        run = subprocess.run(line, check=True, input=stdin, stdout=subprocess.PIPE)
        took = time.perf_counter() - began
        least = took if least is None else min(least, took)
    return least, run.stdout


def worlds():
    """Events a second of the world, devices included, and how much of the time copies of the longest values take."""
    program = [PROGRAM, "world"]
    print(
        f"\n{'events of a world, values of 8 bytes':<44} {'a second':>12} {'10 x more':>12}"
        "   of 4,080 bytes: a second, in copying"
    )
    for segments, rounds in ((1, 20_000), (4, 4_000), (16, 500)):
        idle, _ = seconds(*program, str(segments), "0", "8")
        rates, times = [], []
        for more, length in ((1, 8), (10, 8), (10, 4_080)):
            took, printed = seconds(*program, str(segments), str(more * rounds), str(length))
            times.append(took - idle)
            rates.append(int(printed) / (took - idle))
        share = 1 - times[1] / times[2]
        for what, rate in zip(("8 bytes", "8 bytes, ten times as many", "4,080 bytes"), rates):
            NOTED.note(f"events of a world of {segments}, values of {what}", "snapd", [rate], "/s")
        print(f"  {segments:>2} segments{'':<31} {rates[0]:>12,.0f} {rates[1]:>12,.0f} {rates[2]:>16,.0f} {share:.0%}")


def scripts():
    """Lines a second of `snapd script` on a megabyte of short lines, and on a tenth of that."""
    snapd = str(TOP / "bin" / "snapd")
    update = (
        b"begin 0 61\nlook w0\nlook w0\n" + b"call 0\n" * 5 + b"show 0\nack 0\nscan 0\nlook s0\nlook s0\nanswer 0\n"
    )
    head = b"world 1 1\n"
    idle, _ = seconds(snapd, "script", stdin=head)
    rates = []
    for size in (100_000, 1_048_000):
        text = head + update * (size // len(update))
        took, _ = seconds(snapd, "script", stdin=text)
        rates.append(text.count(b"\n") / (took - idle))
        NOTED.note(f"lines of a script of {size:,} bytes", "snapd", rates[-1:], "/s")
    print(f"\n{'lines of a script':<44} {rates[0]:>12,.0f} {rates[1]:>12,.0f}   a second, at 100 kB and at 1 MB")


def resident(process, line="VmRSS:"):
    """The memory that this process has resident, in kB; at `VmHWM:` the most that it has had so far."""
    status = pathlib.Path(f"/proc/{process.pid}/status").read_text()
    return int(status.split(line)[1].split()[0])


def endless():
    """Lines a second of a script of 200 MB, and whether it ran to its end with less than 10 MB resident."""
    piece, pieces = b"show 0\n" * 10_000, 200_000_000 // 70_000 + 1
    began = time.monotonic()
    run = subprocess.Popen([TOP / "bin" / "snapd", "script"], stdin=subprocess.PIPE, stdout=subprocess.DEVNULL)
    run.stdin.write(b"world 1 1\n")
    for _ in range(pieces):
        run.stdin.write(piece)
    most = resident(run, "VmHWM:")
    run.stdin.close()
    status = run.wait()
    rate = 10_000 * pieces / (time.monotonic() - began)
    NOTED.note("lines of a script of 200 MB", "snapd", [rate], "/s")
    NOTED.note("a script of 200 MB, resident", "snapd", [most], "kB")
    print(f"{'a script of 200 MB of short lines':<44} {rate:>12,.0f} {most:>12,}   lines a second, and kB resident")
    return status == 0 and most < 10_000


def update(writer, segments):
    """The lines of one update without other writers. A store whose spare gate is closed answers the last call `not
    now`."""
    return (
        [f"begin {writer} 61"]
        + [f"look w{writer}"] * (2 * segments)
        + [f"call {writer}"] * 5
        + [f"show {writer}", f"ack {writer}"]
    )


def looks_beside(segments, writer_before):
    """How many looks a scan makes where this writer, if any, makes an update before each of its looks."""
    snapd = str(TOP / "bin" / "snapd")
    lines, at = [f"world {segments} 1", "scan 0"], []
    for look in range(segments * (segments + 2) + 1):
        writer = writer_before(look)
        if writer is not None:
            lines += update(writer, segments)
        at.append(len(lines))
        lines.append("look s0")
    script = "\n".join([*lines, "answer 0", ""])
    printed = subprocess.run(
        [snapd, "script"], input=script, check=True, stdout=subprocess.PIPE, text=True
    ).stdout.splitlines()
    assert printed[-1].startswith("memory "), printed[-1]
    return sum(printed[place].startswith("number ") for place in at)


def looks():
    """Looks of a scan alone, beside a writer that moves between all looks, and beside writers each of which moves
    once."""
    names = ("alone", "one writer between all looks", "one in each collect", "one in each second collect")
    print(f"\n{'looks of a scan':<20}" + "".join(f"{name:>30}" for name in names))
    for segments in (1, 2, 4, 16):
        # In collect m a writer that hasn't moved yet moves just before it is looked at,
        # so the collect differs from the last.
        each = {m * segments + m - 1: m - 1 for m in range(1, segments + 1)}
        second = {(2 * m + 1) * segments + m: m for m in range(segments)}
        schedules = (lambda look: None, lambda look: 0 if look else None, each.get, second.get)
        counts = [looks_beside(segments, it) for it in schedules]
        for name, count in zip(names, counts):
            NOTED.note(f"looks of a scan of {segments}", name, [count], "count")
        print(f"  {segments:>2} segments{'':<7}" + "".join(f"{it:>30}" for it in counts))


def pairs(work, folder, rounds):
    """The nanoseconds of both things that a round times."""
    words = [PROGRAM, "restart", work, folder, str(rounds)]
    run = subprocess.run(words, check=True, stdout=subprocess.PIPE, text=True)
    return [tuple(map(int, line.split())) for line in run.stdout.splitlines()]


def durable(folder):
    """Updates beside bare stores, and openings of all files beside bare syncs and reads."""
    print(f"\n{'durable writers and restarts':<44} {'bare':>12} {'whole':>12}   ratio")
    for work, rounds, aim in (("file", 1_000, "aim 1.05"), ("memory", 20_000, "the more in microseconds: {more:.2f}")):
        place = folder / work
        place.mkdir()
        found = pairs(work, place, rounds)
        label = f"store and update, in a {work}" if work == "file" else "store and update, in memory"
        bare, whole = (it / 1000 for it in NOTED.note_all(label, dict(zip(("store", "update"), zip(*found))), "ns"))
        ratio = NOTED.note(label, "update, divided by store", [update / store for store, update in found], "ratio")
        print(f"{label:<44} {bare:>9,.1f} us {whole:>9,.1f} us   {ratio:.3f}   ({aim.format(more=whole - bare)})")
    place = folder / "open"
    place.mkdir()
    found = dict(zip(("open_all", "sync and read"), zip(*pairs("open", place, 200))))
    whole, bare = (it / 1e6 for it in NOTED.note_all("16 files", found, "ns"))
    more = whole - bare
    print(
        f"{'16 files: sync and read, and open_all':<44} {bare:>9,.2f} ms {whole:>9,.2f} ms"
        f"   {more:.2f} ms more   (aim 10)"
    )


def worked(*line):
    """How many seconds the processor worked for one run, whatever else the machine did."""
    before = resource.getrusage(resource.RUSAGE_CHILDREN)
    subprocess.run(line, check=True, stdout=subprocess.DEVNULL)
    after = resource.getrusage(resource.RUSAGE_CHILDREN)
    return after.ru_utime + after.ru_stime - before.ru_utime - before.ru_stime


def memory_ratio(label, limit, baseline, work, segments, rounds, length, tries=7):
    """Times a round of both programs: the least time of some rounds, without that of none. The runs alternate."""
    least = {}
    memory = PROGRAM, "memory"
    for _ in range(tries):
        for program in (memory, (baseline,)):
            for count in (0, rounds):
                took = worked(*program, work, str(segments), "0", str(count), str(length))
                least[program, count] = min(took, least.get((program, count), took))
    mine, bare = ((least[it, rounds] - least[it, 0]) / rounds * 1e9 for it in (memory, (baseline,)))
    label = f"{label}, {segments} x {length:,} bytes"
    NOTED.note_all(label, {"snapd": [mine], "C": [bare]}, "ns")
    print(f"{label:<44} {mine:>9,.1f} ns {bare:>9,.1f} ns   {mine / bare:.3f}   (aim {limit})")


def memories(folder):
    """Looks, quiet scans and updates of a memory against C, and scans a second of 16 segments beside writers."""
    baseline = str(compiled(folder, "baseline_memory"))
    print(f"\n{'a memory between threads':<44} {'snapd':>12} {'C':>12}   ratio")
    for length, rounds in ((8, 2_000_000), (4_080, 100_000)):
        memory_ratio("look and value", 1.3, baseline, "look", 1, rounds, length)
    for label, work in (("quiet scan", "scan"), ("prepare and show", "update")):
        for segments, rounds, length in (
            (1, 1_000_000, 8),
            (4, 300_000, 8),
            (16, 100_000, 8),
            (1, 50_000, 4_080),
            (4, 10_000, 4_080),
            (16, 3_000, 4_080),
        ):
            memory_ratio(label, 1.5, baseline, work, segments, rounds, length)
    rates = []
    for writers in ("0", "1", "15"):
        idle, _ = seconds(PROGRAM, "memory", "scan", "16", writers, "0", "8")
        took, _ = seconds(PROGRAM, "memory", "scan", "16", writers, "30000", "8")
        NOTED.note(f"scans beside {writers} writers", "snapd", [30_000 / (took - idle)], "/s")
        rates.append(f"{30_000 / (took - idle):>12,.0f}")
    print(f"{'scans a second beside 0, 1 and 15 writers':<44} {' '.join(rates)}")


def largest_memory():
    """The kB resident of a memory for 16 segments and 16 scanners. Whether they are within the aim once its buffers
    were used."""
    words = [PROGRAM, "memory", "fill", "16", "0", "0", "4080"]
    run = subprocess.Popen(words, stdin=subprocess.PIPE, stdout=subprocess.PIPE)
    run.stdout.readline()
    before, most = resident(run), resident(run, "VmHWM:")
    run.stdin.write(b"\n")
    run.stdin.flush()
    run.stdout.readline()
    used = resident(run)
    run.communicate(b"\n")
    NOTED.note_all("the largest memory", {"opened": [before], "while opening": [most], "all used": [used]}, "kB")
    print(
        f"{'the largest memory, kB resident':<44} opened {before:,} (while opening {most:,}), all used {used:,}"
        "   (aim 45,000)"
    )
    return run.returncode == 0 and used <= 45_000


def service_round(work, segments, rounds, length, tries=5):
    """How many seconds the processor works for a round: the least time of some rounds, without that of none."""
    least = {}
    for _ in range(tries):
        for count in (0, rounds):
            took = worked(PROGRAM, "service", work, str(segments), str(count), str(length))
            least[count] = min(took, least.get(count, took))
    return (least[rounds] - least[0]) / rounds


def services():
    """Requests a second of a node over memory, and its largest scan beside a plain copy of the same bytes."""
    print(f"\n{'a node over memory':<44} {'requests a second':>18}")
    for label, work, segments, rounds in (
        ("scan of 1 segment, 8 bytes", "scan", 1, 1_000_000),
        ("scan of 16 segments, 8 bytes", "scan", 16, 100_000),
        ("repeat of an update, 8 bytes", "update", 1, 1_000_000),
        ("status of 16 segments", "status", 16, 300_000),
    ):
        rate = NOTED.note(f"a node: {label}", "snapd", [1 / service_round(work, segments, rounds, 8)], "/s")
        print(f"  {label:<42} {rate:>18,.0f}")
    scan, copy = (service_round(work, 16, 20_000, 4_080) * 1e6 for work in ("scan", "copy"))
    label = "  scan of 16 x 4,080 bytes, and a plain copy"
    NOTED.note_all(label.strip(), {"snapd": [scan], "copy": [copy]})
    print(
        f"{label:<44} {scan:>9,.2f} us {copy:>9,.2f} us   {scan / copy:.3f}"
        f"   (aim 2.5; of the scan's time one copy is {copy / scan:.0%})"
    )


def main():
    words = figures.arguments(argparse.ArgumentParser())
    words.add_argument("--folder")
    words.add_argument("--runs", type=int, default=300)
    words = words.parse_args()
    with tempfile.TemporaryDirectory(prefix="bench-", dir=words.folder or TOP) as folder:
        folder = pathlib.Path(folder)
        timer, baseline = compiled(folder, "timer"), compiled(folder, "baseline")
        snapd, many = TOP / "bin" / "snapd", [PROGRAM, "store"]
        file, value, fresh, used, empty = (folder / name for name in ("F", "value", "fresh", "used", "empty"))
        value.write_bytes(b"v" * 1_000)
        empty.write_bytes(b"")
        fresh.write_bytes(layout.holding((0, b"")))
        used.write_bytes(layout.holding((1, b"v" * 1_000), (2, b"v" * 1_000)))
        print(f"{'':<44} {'snapd':>12} {'C':>12}   ratio")
        for label, start, command in [
            ("put, spare gate closed, whole process", fresh, "put"),
            ("put, spare gate open, whole process", used, "put"),
            ("get, whole process", used, "get"),
        ]:
            ratio(label, 1.3, timer, words.runs, start, [snapd, command, file], [baseline, command, file], file, value)
        ratio(
            f"{STORES} stores in one process",
            1.05,
            timer,
            max(5, words.runs // 5),
            empty,
            [*many, file, str(STORES)],
            [baseline, "store", file, str(STORES)],
            file,
            value,
        )
        old = [baseline, "old", file, str(STORES)]
        for label, limit, program in [
            (f"{STORES} stores, beside the old format in C", 0.7, [*many, file, str(STORES)]),
            (f"{STORES} stores in C, beside the old format", 0.667, [baseline, "store", file, str(STORES)]),
        ]:
            ratio(label, limit, timer, max(5, words.runs // 5), empty, program, old, file, value)
        few, more = allocations(many, folder, 1), allocations(many, folder, STORES)
        NOTED.note_all("allocations", {"1 store": [few], f"{STORES} stores": [more]}, "count")
        print(f"allocations with 1 store and with {STORES}: {few} and {more}")
        worlds()
        scripts()
        fits = endless()
        looks()
        memories(folder)
        small = largest_memory()
        durable(folder)
        services()
        NOTED.write(words.json, folder, snapd)
        return 0 if few == more and fits and small else 1


if __name__ == "__main__":
    sys.exit(main())
