"""Each kind of line of a script: what it prints, what is said where it can't be read, and whole scripts of them over
inputs and outputs that come in pieces or fail."""

from preload import library
from program import Run
from streams import ALL, WHY, failing
from test_memory import count_of
from test_script import BORROWED, WORKED, lines


def of_rows(text):
    """A script, and what it prints. Each row has a line and, after `>`, its outputs, one for each time that the line is
    given; a line alone prints itself."""
    script, printed = [], []
    for row in text.splitlines():
        line, _, answers = row.partition(" > ")
        for answer in (answers or line).split(", "):
            script.append(line)
            printed.append(answer)
    return lines(script), lines(printed)


def ends(snapd, script, status, printed, said=""):
    run = snapd("script", stdin=script)
    assert run == Run(status, printed.encode(), f"snapd: {said}\n" if said else ""), (script, run)


# ---- first lines, and lines after them ----

NO_WORLD = "the first line has to be `world N S`, with N and S from 1 to 16"
FIRST = [
    "world", "world 1", "world 0 1", "world 1 0", "world 17 1", "world 1 17", "world 1 1 1", "world  1 1",
    "world 1 1\r", "World 1 1", "restart", " ",
]


def test_first_lines(snapd, _):
    for script, printed in (
        ("", ""), ("\n\n\n", ""), ("world 1 1", "world 1 1\n"), ("\nworld 01 016\n\n", "world 1 16\n"),
    ):
        ends(snapd, script, 0, printed)
    for line in FIRST:
        ends(snapd, "\n" + line, 2, "", f"line 2: {NO_WORLD}")


# Lines that can be read, and what each prints after `world 2 1`.
READ = [
    ("begin 0 -", "begun"),
    ("begin 00000000000000001 6A6b", "begun"),
    ("scan 00", "scanning"),
    ("pick 00 0003", "scanning"),
    *((line, "not now") for line in (
        "begin 2 61", "begin 17 61", "begin 9999999999999999999 61", "look w0", "look s9999999999999999999", "show 0",
        "ack 0", "scan 1",
        "pick 0 0004", "pick 0 fFFf", "answer 0", "call 0", "fail 0 keep", "fail 0 Ff", "fail 0 at:5:-",
        "fail 0 at:0005:6869", "crash keep", "crash keep a5 at:0:-", "restart", "recall", "refail a5", "serve",
    )),
]


def test_lines_that_can_be_read(snapd, _):
    for line, printed in READ:
        ends(snapd, f"\n\nworld 02 001\n\n{line}", 0, f"world 2 1\n{printed}\n")
    ends(snapd, "world 01 016\nshow 0", 0, "world 1 16\nnot now\n")


# Lines that can't be read, by what is said of them.
UNREAD = {
    "only the first line is `world N S`": ["world 2 1"],
    "no event begins with this word": [" show 0", "SHOW 0", "show\t0", "restart\r", "shows 0"],
    "expected `show W`": [
        "show", "show ", "show  0", "show 0 ", "show 0\r", "show 0 0", "show +0", "show -0", "show 0x0",
        "show 00000000000000000000",
    ],
    "expected `begin W HEX`": ["begin 0", "begin 0 ", "begin 0 6", "begin 0 6g", "begin 0 --", "begin 61"],
    "expected `look wW` or `look sS`": ["look 0", "look W00", "look w", "look w 0"],
    "expected `ack W`": ["ack"],
    "expected `scan S`": ["scan s0"],
    "expected `pick S MASK`": [
        "pick", "pick 0", "pick 0 ", "pick s0 0001", "pick 0001 0", "pick 0 001", "pick 0 00001", "pick 0 1",
        "pick 0 +001",
        "pick 0 -001", "pick 0 0x01", "pick 0 000g", "pick 0 -", "pick 0 00 01", "pick 0  0001", "pick 0 0001 ",
    ],
    "expected `answer S`": ["answer w0"],
    "expected `call W`": ["call"],
    "expected `fail W FILL`": [
        "fail 0", "fail 0 Keep", "fail 0 a", "fail 0 a5a5", "fail 0 -", "fail 0 at:5:", "fail 0 at::61", "fail 0 at:5",
        "fail 0 at:5:61:61",
    ],
    "expected `crash FILL ..`": ["crash", "crash keep  keep", "crash keep stay"],
    "expected `restart`": ["restart 0"],
    "expected `recall`": ["recall "],
    "expected `refail FILL`": ["refail", "refail keep keep"],
    "expected `serve`": ["serve 0"],
}


def test_lines_that_can_not_be_read(snapd, _):
    """The lines before them are done, and none after them."""
    for said, unread in UNREAD.items():
        for line in unread:
            ends(snapd, f"world 2 1\n\nscan 0\n{line}\nscan 0\n", 2, "world 2 1\nscanning\n", f"line 4: {said}")


# ---- whole scripts ----

# An update is shown between the first two looks of a scan, so they differ, and it looks once more.
INSIDE_A_SCAN = """world 1 1
begin 0 6869 > begun
look w0 > number 0, number 0
call 0 > called body, called sync, called open, called sync
scan 0 > scanning
look s0 > number 0
show 0 > shown
look s0 > number 1
ack 0 > stored 1
look s0 > number 1
answer 0 > memory 6869"""
# A crash closes the gate that was written open, so the restart finds the old value.
CLOSED_BY_A_CRASH = """world 1 1
begin 0 61 > begun
look w0 > number 0, number 0
call 0 > called body, called sync, called open
crash 00 > crashed
serve > not now
restart > restarting
serve > not now
recall > called sync, called read, not now
serve > memory -"""
# A scan of segments 0 and 2, inside which segment 1 shows an update.
OF_A_PART = """world 3 1
pick 0 0005 > scanning
look s0 > number 0, number 0
begin 1 61 > begun
look w1 > number 0, number 0, number 0, number 0, number 0, number 0
call 1 > called body, called sync, called open, called sync
show 1 > shown
look s0 > number 0, number 0
answer 0 > part 0=- 2=-, not now"""
# Segment 0 is shown twice inside a scan of segments 0 and 2, which takes their values from the view of the second of
# these updates: the memory as it was before that one.
BORROWED_PART = """world 3 1
pick 0 0005 > scanning
look s0 > number 0
begin 0 0A > begun
look w0 > number 0, number 0, number 0, number 0, number 0, number 0
call 0 > called body, called sync, called open, called sync
show 0 > shown
ack 0 > stored 1
look s0 > number 0, number 1
begin 0 62 > begun
look w0 > number 1, number 0, number 0, number 1, number 0, number 0
call 0 > called close, called body, called sync, called open, called sync
show 0 > shown
look s0 > number 0, number 2
answer 0 > part 0=0a 2=-"""
# Segment 0 is shown once inside a scan, which is clean after six looks, and answers once.
CLEAN_AFTER_SIX = """world 2 1
scan 0 > scanning
look s0 > number 0, number 0
begin 0 61 > begun
call 0 > not now
look w0 > number 0, number 0, number 0, number 0, not now
show 0 > not now
call 0 > called body, called sync, called open, called sync, not now
show 0 > shown
ack 0 > stored 1
look s0 > number 1, number 0, number 1, number 0, not now
answer 0 > memory 61 -, not now"""
# The same with an update that was stored before the scan began, and with another segment's.
LATE_SHOW = """world 2 1
begin 0 61 > begun
look w0 > number 0, number 0, number 0, number 0
call 0 > called body, called sync, called open, called sync
begin 1 62 > begun
look w1 > number 0, number 0, number 0, number 0
call 1 > called body, called sync, called open, called sync
show 1 > shown
ack 1 > stored 1
scan 0 > scanning
look s0 > number 0
show 0 > shown
ack 0 > stored 1
look s0 > number 1, number 1, number 1, number 1, number 1
answer 0 > memory 61 62"""
# Segment 1 is shown between the end of the embedded scan whose view is borrowed and its publication: the view lacks it.
SHOWN_BEHIND_THE_VIEW = """world 2 1
scan 0 > scanning
look s0 > number 0
begin 0 61 > begun
look w0 > number 0, number 0, number 0, number 0
call 0 > called body, called sync, called open, called sync
show 0 > shown
ack 0 > stored 1
look s0 > number 0, number 1
begin 0 62 > begun
look w0 > number 1, number 0, number 1, number 0
call 0 > called close, called body, called sync, called open, called sync
begin 1 63 > begun
look w1 > number 1, number 0, number 1, number 0
call 1 > called body, called sync, called open, called sync
show 1 > shown
ack 1 > stored 1
show 0 > shown
ack 0 > stored 2
look s0 > number 1, number 2
answer 0 > memory 61 -"""
# A value longer than a piece of digits is printed in order, and in lower case.
LONG_VALUE = f"""world 2 1
begin 1 {"0A" * 65} > begun
look w1 > number 0, number 0, number 0, number 0
call 1 > called body, called sync, called open, called sync
show 1 > shown
scan 0 > scanning
look s0 > number 0, number 1, number 0, number 1
answer 0 > memory - {"0a" * 65}"""
# Numbers of two digits, which are decimal.
TEN_UPDATES = "\n".join([
    "world 1 1",
    *(f"""begin 0 {number:02x} > begun
look w0 > number {number}, number {number}
call 0 > {"called close, " if number else ""}called body, called sync, called open, called sync
show 0 > shown
ack 0 > stored {number + 1}""" for number in range(10)),
    "scan 0 > scanning\nlook s0 > number 10, number 10\nanswer 0 > memory 09",
])
LOOKS = "look s0 > number 0, number 0"
SCRIPTS = [
    INSIDE_A_SCAN,
    CLOSED_BY_A_CRASH,
    OF_A_PART,
    BORROWED_PART,
    CLEAN_AFTER_SIX,
    LATE_SHOW,
    SHOWN_BEHIND_THE_VIEW,
    LONG_VALUE,
    "world 1 1\nscan 0 > scanning\nlook s0 > number 0, number 0\nanswer 0 > memory -",
    TEN_UPDATES,
    # A part has to name a segment, and none that isn't there; and a scanner does one scan at a time.
    "world 3 1\npick 0 0008 > not now",
    "world 3 1\npick 0 000d > not now",
    "world 3 1\npick 0 0000 > not now",
    "world 3 1\npick 1 0005 > not now",
    "world 15 1\npick 0 8000 > not now",
    "world 3 1\npick 0 0007 > scanning\npick 0 0005 > not now\nscan 0 > not now",
    # Its first digits name the upper segments, in either case.
    f"world 16 1\npick 0 8C00 > scanning\n{LOOKS}\n{LOOKS}\n{LOOKS}\nanswer 0 > part 10=- 11=- 15=-",
    f"world 16 1\npick 0 000a > scanning\n{LOOKS}\n{LOOKS}\nanswer 0 > part 1=- 3=-",
    "world 2 2\npick 1 0002 > scanning\nlook s1 > number 0, number 0\nanswer 1 > part 1=-",
]


def test_scripts(snapd, _):
    for rows in SCRIPTS:
        script, printed = of_rows(rows)
        ends(snapd, script, 0, printed)


# ---- inputs and outputs ----

def test_scripts_in_pieces(snapd, _):
    """However the reads cut it, a script prints the same, also where its last line has no end."""
    for rows in (WORKED, BORROWED):
        script, printed = (lines(it) for it in zip(*rows))
        for step in (1, 2, 3, 7, 20):
            for text in (script, script.rstrip()):
                snapd("script", stdin=text, env=failing(0, step=step)).gave(0, printed)


def test_an_input_that_fails(snapd, _):
    """The lines whose ends were read before that were done and printed, however the reads cut them."""
    script, said = "world 1 1\nshow 0\nshow 0", f"snapd: standard input: {WHY}\n"
    for count, printed in (
        (0, ""), (9, ""), (10, "world 1 1\n"), (12, "world 1 1\n"), (16, "world 1 1\n"), (17, "world 1 1\nnot now\n"),
        (22, "world 1 1\nnot now\n"),
    ):
        for step in (2, ALL):
            snapd("script", stdin=script, env=failing(0, count, step)).gave(1, printed, said)


def test_an_output_that_fails(snapd, _):
    """It holds what it takes of the text."""
    script, whole = (lines(it) for it in zip(*BORROWED))
    short = ("world 1 1\nshow 0\n", "world 1 1\nnot now\n")
    for (given, printed), counts in (((script, whole), (0, 1, 9, 10, 11, 100, len(whole) - 1)), (short, (0, 5, 12))):
        for count in counts:
            for step in (2, ALL):
                run = snapd("script", stdin=given, env=failing(1, count, step))
                run.gave(1, printed[:count], f"snapd: standard output: {WHY}\n")


def test_the_longest_value_is_printed(snapd, _):
    """Also where the output takes two bytes at once."""
    looks, stores = "look w0 > number 0, number 0", "call 0 > called body, called sync, called open, called sync"
    scans = "scan 0 > scanning\nlook s0 > number 1, number 1"
    script, printed = of_rows(
        f"world 1 1\nbegin 0 {'7a' * 4_080} > begun\n{looks}\n{stores}\nshow 0 > shown\n{scans}\n"
        f"answer 0 > memory {'7a' * 4_080}"
    )
    for step in (2, ALL):
        snapd("script", stdin=script, env=failing(1, ALL, step)).gave(0, printed)


def test_each_allocation_is_refused(snapd, _):
    """What was printed is whole lines from the beginning, and all of them where it ends well."""
    script, printed = (lines(it) for it in zip(*BORROWED))
    refused = 0
    for number in range(1, count_of(snapd, "script", stdin=script) + 1):
        run = snapd(
            "script", stdin=script, env={"LD_PRELOAD": library("allocations"), "ALLOCATIONS_REFUSE": str(number)}
        )
        if run.status == 0:
            run.gave(0, printed)
        else:
            assert (run.status, run.errors) == (3, "snapd: refused 8 NoMemory\n"), run
            assert printed.encode().startswith(run.output) and run.output[-1:] in (b"", b"\n"), run
            refused += 1
    assert refused > 20, refused
