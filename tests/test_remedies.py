"""What is said of a file that was refused, to the byte, where no other test compares it so:
no contract has these texts."""

import errno

import segment_file as layout
from preload import library
from segment_file import OLD
from test_serve_disks import Disk
from test_serve_memory import NO_THREAD

# Files, most of them of two segments.
HELD = {
    "empty": b"",
    "short": bytes(layout.LENGTH - 1),
    "unformatted": bytes(layout.LENGTH),
    "first": layout.holding((1, b"hi"), index=0, count=2),
    "second": layout.holding((1, b"hi"), index=1, count=2),
    "damaged": layout.holding((4, b"a"), (6, b"b"), index=1, count=2),
    "old": OLD.holding((0, b""), (1, b"hi"), index=1, count=2),
    "old, blank": bytes(OLD.length),
    "old, damaged": OLD.holding(index=1, count=2),
}
MIGRATE, AS_OLD, AS_NEW = "migrate OLD F --index 1 --count 2", "refused as the old file: ", "refused as the new file: "
SERVE = "serve 127.0.0.1:0 F G"
# How the files are made, the words, and the two lines of standard error after `snapd: `, the first after `refused `
# too.
ROWS = [
    ({"F": "empty"}, "check F --json", "14 WrongFile",
     "F: it has no byte: a format that was cut off: go on with snapd format F --index I --count N"),
    ({"F": "short"}, "check F --json", "14 WrongFile", "F: it has 28671 bytes, and a segment file has 28672"),
    ({"F": "old"}, "check F --json", "14 WrongFile",
     "F: it has the length of the old format: carry it over with snapd migrate F NEW --index I --count N"),
    # The files of a migration whose place isn't the first.
    ({"OLD": "short", "F": "unformatted"}, MIGRATE, "14 WrongFile",
     f"OLD: {AS_OLD}it isn't the file of segment 1 of 2 with the 20480 bytes of the old format"),
    ({"OLD": "old", "F": "unformatted"}, "migrate OLD F --index 2 --count 3", "14 WrongFile",
     f"OLD: {AS_OLD}it isn't the file of segment 2 of 3 with the 20480 bytes of the old format"),
    ({"OLD": "old, blank", "F": "unformatted"}, MIGRATE, "11 Unformatted",
     f"OLD: {AS_OLD}it was never formatted, or its header is gone: look for a backup"),
    ({"OLD": "old, damaged", "F": "unformatted"}, MIGRATE, "10 Damaged",
     f"OLD: {AS_OLD}its slots give no answer: look for a backup"),
    ({"OLD": "old", "F": "short"}, MIGRATE, "14 WrongFile",
     f"F: {AS_NEW}it is neither empty nor of the 28672 bytes of a segment file: give another path"),
    ({"OLD": "old", "F": "second"}, MIGRATE, "12 AlreadyFormatted",
     f"F: {AS_NEW}it is formatted already: see snapd check F"),
    # Files of a folder that is dumped.
    ({"D/segment-00.seg": "first", "D/segment-01.seg": "damaged"}, "dump D", "10 Damaged",
     "D/segment-01.seg: its slots give no answer: see snapd check D/segment-01.seg"),
    # Files of a server, whose texts other tests take from docs/FORMATS.md.
    ({"F": "first", "G": "damaged"}, SERVE, "10 Damaged", "G: it doesn't hold a segment's number: see snapd check G"),
    ({"F": "first", "G": "unformatted"}, SERVE, "11 Unformatted",
     "G: it was never formatted, or its header is gone: keep a copy first, then snapd format G --index 1 --count 2"),
    ({"F": "first", "G": "empty"}, SERVE, "14 WrongFile",
     "G: it has no byte: a format that was cut off: go on with snapd format G --index 1 --count 2"),
    ({"F": "first", "G": "old"}, SERVE, "14 WrongFile",
     "G: it has the length of the old format: carry it over with snapd migrate G NEW --index I --count N"),
    ({"F": "first", "G": "first"}, SERVE, "14 WrongFile", "G: it isn't the file of segment 1 of 2: see snapd check G"),
    ({"F": "first", "G": "short"}, SERVE, "14 WrongFile", "G: it isn't the file of segment 1 of 2: see snapd check G"),
]


def made(snapd, files):
    """These files and no others."""
    for name, held in files.items():
        snapd.file(name).parent.mkdir(exist_ok=True)
        snapd.file(name).write_bytes(HELD[held])


def test_each_remedy(snapd, _):
    """And the files stay as they are."""
    for files, words, why, more in ROWS:
        made(snapd, files)
        snapd(*words.split()).gave(3, errors=f"snapd: refused {why}\nsnapd: {more}\n")
        assert {name: snapd.file(name).read_bytes() for name in files} == {
            name: HELD[held] for name, held in files.items()
        }, words


# A server that logs has a thread for that.
THREADLESS = f"snapd: {NO_THREAD}"
# Which file's disk fails, the other files, the words, and what is said of the file.
FAILING = [
    ("G", {"F": "first", "G": "second"}, SERVE, "G: ", "look after its disk, and start again"),
    ("OLD", {"OLD": "old", "F": "unformatted"}, MIGRATE, f"OLD: {AS_OLD}", "look after its disk, and try again"),
    ("F", {"OLD": "old", "F": "unformatted"}, MIGRATE, f"F: {AS_NEW}", "look after its disk, and try again"),
]


def test_a_disk_that_fails_where_memory_is_wanting(snapd, _):
    """Each allocation is refused in turn: what the system said of the disk is left out, or the whole line,
    and nothing else is said."""
    disk, count, refused = Disk(snapd), snapd.file("count"), "snapd: refused 13 DeviceFailed\n"
    env = {**disk.env, "LD_PRELOAD": f"{disk.env['LD_PRELOAD']}:{library('allocations')}"}
    for name, files, words, begins, advice in FAILING:
        made(snapd, files)
        disk.says(f"{name} read fail {errno.EIO}")
        told = {
            f"{refused}snapd: {begins}{why}: {advice}\n"
            for why in ("read: Input/output error (os error 5)", "a call of its device failed")
        }
        seen = {snapd(*words.split(), env={**env, "ALLOCATIONS_COUNT": str(count)}).errors}
        for number in range(1, int(count.read_text()) + 1):
            run = snapd(*words.split(), env={**env, "ALLOCATIONS_REFUSE": str(number)})
            assert run.output == b"" and run.status == (1 if run.errors == THREADLESS else 3), (words, number, run)
            seen.add(run.errors)
        assert seen - {THREADLESS} == {"snapd: refused 8 NoMemory\n", refused, *told}, (words, seen)
