"""Commands on files whose standard input, output or error fails at any byte: how they end, what they say,
and what the files hold then."""

import errno
import shutil

import segment_file as layout
from preload import library
from program import Run
from segment_file import UNFORMATTED
from streams import WHY, failing
from test_folder import files_in, fresh_files, made
from test_serve_disks import Disk

LOST = f"snapd: standard output: {WHY}\n"
HI = layout.holding((0, b""), (1, b"hi"))


def test_an_input_that_fails_changes_nothing(snapd, _):
    snapd.file().write_bytes(HI)
    before = snapd.file().stat()
    for count in range(len("value")):
        run = snapd("put", "F", stdin="value", env=failing(0, count))
        run.gave(1, errors=f"snapd: standard input: {WHY}\n")
    after = snapd.file().stat()
    assert snapd.file().read_bytes() == HI
    assert (after.st_mtime_ns, after.st_ctime_ns) == (before.st_mtime_ns, before.st_ctime_ns)


# What each command prints on a file that holds `hi` as number 1, or makes; what is said where that can't be printed
# whole, and what `get` prints of the file then.
LINES = [
    ("get F", "hi", LOST, "F", "hi"),
    ("put F", "stored 2\n", LOST.replace("snapd: ", "snapd: stored 2, but "), "F", "yo"),
    ("check F", layout.findings(HI), LOST, "F", "hi"),
    ("format G", "formatted 0 of 1\n", LOST, "G", ""),
    ("migrate OLD G", "migrated 0 of 1 number 1\n", LOST, "G", "ho"),
]


def test_an_output_that_fails_at_any_byte(snapd, _):
    """What was to be stored is stored, and what was to be made is made."""
    snapd.file("OLD").write_bytes(layout.OLD.holding((1, b"ho"), (0, b"")))
    for words, whole, said, file, held in LINES:
        for count in range(len(whole)):
            snapd.file().write_bytes(HI)
            snapd.file("G").unlink(missing_ok=True)
            run = snapd(*words.split(), stdin="yo", env=failing(1, count, 2))
            assert run == Run(1, whole[:count].encode(), said), (words, count, run)
            snapd("get", file).gave(0, held)


def test_an_init_whose_output_fails_at_any_byte(snapd, _):
    """The file of a line that was begun is made, or kept. The next init keeps it, and continues."""
    place, kept = snapd.file("D"), made(2, kept=[(0, 0), (1, 0)])
    for whole in (made(2), kept):
        for count in range(len(whole)):
            run = snapd("init", "D", "--count", 2, env=failing(1, count, 2))
            assert run == Run(1, whole[:count].encode(), LOST), (count, run)
            files = 2 if whole == kept else 1 + whole[:count].count("\n")
            assert len(files_in(place)) == files, count
            snapd("init", "D", "--count", 2).gave(0, made(2, kept=[(it, 0) for it in range(files)]))
            assert files_in(place) == fresh_files(2)
            if whole != kept:
                shutil.rmtree(place)
        snapd("init", "D", "--count", 2)


REFUSED = f"snapd: refused 11 Unformatted\nsnapd: {UNFORMATTED}\n"


def test_errors_that_can_not_be_written(snapd, _):
    """The status is the same."""
    snapd.file().write_bytes(bytes(layout.LENGTH))
    for count in (0, 9, 29, 30, 31, len(REFUSED) - 1, len(REFUSED)):
        for step in (2, 1_000):
            snapd("get", "F", env=failing(2, count, step)).gave(3, errors=REFUSED[:count])


# ---- memory that runs out ----

FAILED = "snapd: refused 13 DeviceFailed\n"
IN_VAIN = "look after its disk, and try again\n"
# What `get F` may say where an allocation is refused: of a file that was never formatted,
# and of one that can't be read.
TEXTS = {
    "format": {"snapd: refused 8 NoMemory\n", REFUSED, "snapd: refused 11 Unformatted\n"},
    "disk": {
        "snapd: refused 8 NoMemory\n", FAILED, f"{FAILED}snapd: F: read: {WHY}: {IN_VAIN}",
        f"{FAILED}snapd: F: a call of its device failed: {IN_VAIN}",
    },
}


def test_each_allocation_of_a_refusal_is_refused(snapd, _):
    """Its second line is left out, or its reason is, and nothing else comes of it."""
    disk, count = Disk(snapd), snapd.file("count")
    env = {**disk.env, "LD_PRELOAD": f"{disk.env['LD_PRELOAD']}:{library('allocations')}"}
    for fault, texts in TEXTS.items():
        snapd.file().write_bytes(bytes(layout.LENGTH) if fault == "format" else HI)
        disk.says(*[f"F read fail {errno.EIO}"] * (fault == "disk"))
        snapd("get", "F", env={**env, "ALLOCATIONS_COUNT": str(count)})
        seen = set()
        for number in range(1, int(count.read_text()) + 2):
            run = snapd("get", "F", env={**env, "ALLOCATIONS_REFUSE": str(number)})
            assert (run.status, run.output) == (3, b""), (number, run)
            seen.add(run.errors)
        assert seen == texts, seen
