"""The command `script`: what it prints, line by line, and how it ends (docs/FORMATS.md, "Scripts")."""

import os
import subprocess

from waiting import PATIENCE

# The most bytes of a line, without its end.
LIMIT = 1_048_576

# A store whose spare gate is closed, and one whose spare gate is open: the number before is taken out of the way first.
STORE = ["called body", "called sync", "called open", "called sync"]
STORE_OVER = ["called close", *STORE]

# A scan that borrows the view of a writer which moved twice, and what each line prints.
BORROWED = [
    ("world 2 1", "world 2 1"),
    ("begin 0 61", "begun"),
    *[("look w0", "number 0")] * 4,
    *[("call 0", called) for called in STORE],
    ("scan 0", "scanning"),
    ("look s0", "number 0"),
    ("show 0", "shown"),
    ("ack 0", "stored 1"),
    ("look s0", "number 0"),
    ("look s0", "number 1"),
    ("begin 0 62", "begun"),
    ("look w0", "number 1"),
    ("look w0", "number 0"),
    ("look w0", "number 1"),
    ("look w0", "number 0"),
    *[("call 0", called) for called in STORE_OVER],
    ("show 0", "shown"),
    ("look s0", "number 0"),
    ("look s0", "number 2"),
    ("answer 0", "memory 61 -"),
]

# A crash in a store, one after a fault, and a fault inside a restart, and what each line prints.
WORKED = [
    ("world 1 1", "world 1 1"),
    ("begin 0 6869", "begun"),
    ("show 0", "not now"),
    *[("look w0", "number 0")] * 2,
    *[("call 0", called) for called in STORE[:3]],
    ("scan 0", "scanning"),
    *[("look s0", "number 0")] * 2,
    ("answer 0", "memory -"),
    ("crash a5", "crashed"),
    ("restart", "restarting"),
    ("recall", "called sync"),
    ("recall", "called read"),
    ("serve", "memory 6869"),
    ("ack 0", "not now"),
    ("begin 0 796f", "begun"),
    *[("look w0", "number 1")] * 2,
    ("call 0", "called close"),
    ("fail 0 00", "device failed"),
    ("begin 0 796f", "not now"),
    ("crash keep", "crashed"),
    ("restart", "restarting"),
    ("refail a5", "device failed"),
    ("serve", "not now"),
    ("restart", "restarting"),
    ("recall", "called sync"),
    ("recall", "called read"),
    ("serve", "memory 6869"),
]


def lines(words):
    return "".join(word + "\n" for word in words)


def test_borrowed_view_script(snapd, _):
    script, printed = zip(*BORROWED)
    snapd("script", stdin=lines(script)).gave(0, lines(printed))
    # A last line without its line feed counts, and empty lines are skipped.
    snapd("script", stdin="\n\n".join(script)).gave(0, lines(printed))


def test_worked_script(snapd, _):
    script, printed = zip(*WORKED)
    snapd("script", stdin=lines(script)).gave(0, lines(printed))
    # A crash that closes the gate takes the update back, which no scan had seen.
    script = lines(script[: script.index("serve") + 1]).replace("crash a5", "crash 00")
    assert snapd("script", stdin=script).output.endswith(b"\nmemory -\n")


def test_crash_with_writers_at_the_gate(snapd, _):
    """Two writers after their opening writes, and a crash whose fills differ; a second crash inside the restart."""
    stores = [f"{verb} {w}" for w in (0, 1) for verb in ["begin", *["look"] * 4, *["call"] * 3]]
    stores = [
        line.replace("begin 0", "begin 0 61").replace("begin 1", "begin 1 62").replace("look ", "look w")
        for line in stores
    ]
    restart = ["restart", *["recall"] * 4, "serve"]
    script = ["world 2 1", *stores, "crash a5 00"]
    assert snapd("script", stdin=lines([*script, *restart])).output.endswith(b"\nmemory 61 -\n")
    script += ["restart", "recall", "recall", "crash 00 a5"]
    assert snapd("script", stdin=lines([*script, *restart])).output.endswith(b"\nmemory 61 62\n")


RESTART = [("restart", "restarting"), ("recall", "called sync"), ("recall", "called read")]


def begun(hex, number=0):
    return [(f"begin 0 {hex}", "begun"), *[("look w0", f"number {number}")] * 2]


def called(*kinds):
    return [("call 0", f"called {kind}") for kind in kinds]


def shown(number):
    return [("show 0", "shown"), ("ack 0", f"stored {number}")]


def plays(snapd, *rows):
    script, printed = zip(("world 1 1", "world 1 1"), *rows)
    snapd("script", stdin=lines(script)).gave(0, lines(printed))


TORN = [*begun("6869"), *called("body"), ("crash a5", "crashed"), *RESTART, ("serve", "memory -")]


def test_torn_body_is_not_opened(snapd, _):
    plays(snapd, *TORN)


def test_four_calls_after_a_torn_body(snapd, _):
    plays(snapd, *TORN, *begun("6869"), *called("body", "sync", "open", "sync"), *shown(1))
    plays(snapd, *TORN, *begun("6869"), *called("body"), ("crash a5", "crashed"), *RESTART, ("serve", "memory -"))


FIRST = [*begun("6869"), *called("body", "sync", "open", "sync"), *shown(1)]


def test_crash_after_the_closing_write(snapd, _):
    """The next store closes the spare gate only where the crash left it open."""
    for fill, closes in (("a5", ["close"]), ("00", [])):
        crash = [(f"crash {fill}", "crashed"), *RESTART, ("serve", "memory 6869")]
        again = [*begun("796f", 1), *called(*closes, "body", "sync", "open", "sync"), *shown(2)]
        plays(snapd, *FIRST, *begun("796f", 1), *called("close"), *crash, *again)


def test_five_calls(snapd, _):
    """The second store closes the gate of the number before with its body's sync. Until it opens its own gate a crash
    leaves number 1, and after that write either."""
    again = begun("796f", 1)
    plays(snapd, *FIRST, *again, *called("close", "body", "sync", "open", "sync"), ("call 0", "not now"), *shown(2))
    for fill in ("a5", "00", "keep"):
        crash = [(f"crash {fill}", "crashed"), *RESTART]
        plays(snapd, *FIRST, *again, *called("close", "body"), *crash, ("serve", "memory 6869"))
        plays(snapd, *FIRST, *again, *called("close", "body", "sync"), *crash, ("serve", "memory 6869"))
        memory = "6869" if fill == "00" else "796f"
        plays(snapd, *FIRST, *again, *called("close", "body", "sync", "open"), *crash, ("serve", f"memory {memory}"))


def test_crash_before_the_last_sync(snapd, _):
    for fill, memory in (("a5", "6869"), ("00", "-")):
        plays(
            snapd, *begun("6869"), *called("body", "sync", "open"), (f"crash {fill}", "crashed"), *RESTART,
            ("serve", f"memory {memory}"),
        )


FENCED = [*begun("6869"), *called("body", "sync", "open"), ("fail 0 keep", "device failed")]


def test_fault_fences_the_segment(snapd, _):
    """The value of the failed store is never shown, and no other is taken until a restart."""
    scan = [("scan 0", "scanning"), *[("look s0", "number 0")] * 2, ("answer 0", "memory -")]
    no = [(line, "not now") for line in ("show 0", "begin 0 6869", "call 0", "fail 0 keep")]
    plays(snapd, *FENCED, *scan, *no)


def test_the_client_sends_again(snapd, _):
    """After a restart the update is stored exactly once, whether or not the crash kept it."""
    lost = [("crash 00", "crashed"), *RESTART, ("serve", "memory -")]
    plays(snapd, *FENCED, *lost, *begun("6869"), *called("body", "sync", "open", "sync"), *shown(1))
    plays(snapd, *FENCED, ("crash a5", "crashed"), *RESTART, ("serve", "memory 6869"), *begun("796f", 1),
          *called("close", "body", "sync", "open", "sync"), *shown(2))


def test_restart_sync_fails(snapd, _):
    script = ["world 2 1", "crash keep keep", "restart", "recall", "recall", "refail keep", "scan 0", "recall", "serve"]
    snapd("script", stdin=lines(script)).gave(
        0, "world 2 1\ncrashed\nrestarting\ncalled sync\ncalled read\ndevice failed\n" + 3 * "not now\n"
    )


def test_nothing_to_do(snapd, _):
    for script in ("", "\n", "\n\n\n"):
        snapd("script", stdin=script).gave(0)


def test_numbers_and_bytes(snapd, _):
    snapd(
        "script",
        stdin="world 01 0000000000000000016\nbegin 0 -\nlook w00\nlook w0\n" + "call 0\n" * 4 + "show 0\nack 0\n",
    ).gave(0, "world 1 16\nbegun\nnumber 0\nnumber 0\n" + lines(STORE) + "shown\nstored 1\n")
    # Either case is read, and lower case is printed.
    script = [
        "world 1 1", "begin 0 aBfF", *["look w0"] * 2, *["call 0"] * 4, "show 0", "scan 0", *["look s0"] * 2,
        "answer 0",
    ]
    run = snapd("script", stdin=lines(script))
    assert run.output.splitlines()[-1] == b"memory abff", run
    # The longest value, and one byte more.
    begins = lines(["world 1 1", "begin 0 " + "00" * 4_081, "begin 0 " + "00" * 4_080])
    snapd("script", stdin=begins).gave(0, "world 1 1\nnot now\nbegun\n")


def test_what_may_not_come(snapd, _):
    events = [
        "show 0", "ack 0", "answer 0", "look w0", "look s0", "begin 17 61", "scan 1", "begin 9999999999999999999 -",
    ]
    events += [
        "call 0", "fail 0 keep", "fail 9 at:5:-", "crash 00 keep", "restart", "recall", "refail at:9:a5", "serve",
    ]
    snapd("script", stdin=lines(["world 1 1", *events])).gave(0, lines(["world 1 1", *["not now"] * len(events)]))
    down = ["begin 0 61", "scan 0", "recall", "serve", "refail keep"]
    snapd("script", stdin=lines(["world 1 1", "crash at:5:-", *down, "crash keep"])).gave(
        0, lines(["world 1 1", "crashed", *["not now"] * len(down), "crashed"])
    )


def test_lines_that_cannot_be_read(snapd, _):
    first = ["world 0 1", "world 17 1", "world 1 17", "world 1", "world 1 1 1", "begin 0 61", "World 1 1", " world 1 1"]
    for line in first:
        snapd("script", stdin=line + "\nscan 0\n").failed_with(2, "line 1: ")
    later = [
        "world 1 1", "begin 0 ", "begin 0", "begin 0 6", "begin 0 6g", "begin 00000000000000000000 61", "begin -1 61",
    ]
    later += ["look 0", "look w", "look x0", "show", "show 0 0", " show 0", "show 0 ", "show  0", "show\t0", "show 0\r"]
    later += [
        "crash", "crash 0", "crash keep keep ", "crash KEEP", "crash at:5:", "crash at::-", "fail 0", "refail",
        "serve 0",
    ]
    later += ["shout 0", "#", "\x00"]
    for line in later:
        run = snapd("script", stdin="world 1 1\n\nscan 0\n" + line + "\nscan 0\n")
        assert (run.status, run.output) == (2, b"world 1 1\nscanning\n"), (line, run)
        assert run.errors.startswith("snapd: line 4: ") and run.errors.count("\n") == 1, (line, run)


def test_what_is_wrong_in_a_line_is_said(snapd, _):
    world = "the first line has to be `world N S`, with N and S from 1 to 16"
    for script, number, text in [
        ("scan 0\n", 1, world), ("\nworld 17 1\n", 2, world),
        ("world 1 1\nworld 1 1\n", 2, "only the first line is `world N S`"),
        ("world 1 1\n\nworld\n", 3, "only the first line is `world N S`"),
        ("world 1 1\nshout 0\n", 2, "no event begins with this word"),
        ("world 1 1\nlook 0\n", 2, "expected `look wW` or `look sS`"), ("world 1 1\nserve 0\n", 2, "expected `serve`"),
    ]:
        run = snapd("script", stdin=script)
        assert (run.status, run.errors) == (2, f"snapd: line {number}: {text}\n"), (script, run)


def test_the_longest_line_and_one_byte_more(snapd, _):
    longest = "begin 0 " + "a5" * ((LIMIT - 8) // 2)
    assert len(longest) == LIMIT
    for end in ("", "\n"):
        snapd("script", stdin="world 1 1\n\n" + longest + end).gave(0, "world 1 1\nnot now\n")
        for line in (longest + "0", "x" * (LIMIT + 1), "\x00" * (3 * LIMIT)):
            run = snapd("script", stdin="world 1 1\n\n" + line + end)
            assert (run.status, run.output) == (2, b"world 1 1\n"), run.status
            assert run.errors == "snapd: line 3: a line has at most 1048576 bytes\n", run.errors
    run = snapd("script", stdin="x" * LIMIT + "\n")
    assert run.status == 2 and run.errors.startswith("snapd: line 1: the first line has to be "), run.errors


def test_scripts_longer_than_a_line_may_be(snapd, _):
    rows = 2_000_000 // len("show 0\n") + 1
    snapd("script", stdin="world 1 1\n" + "show 0\n" * rows).gave(0, "world 1 1\n" + "not now\n" * rows)
    snapd("script", stdin="world 1 1\n" + "\n" * 2_000_000 + "show 0").gave(0, "world 1 1\nnot now\n")
    run = snapd("script", stdin="world 1 1\n" + "\n" * 2_000_000 + "show")
    assert (run.status, run.output) == (2, b"world 1 1\n"), run
    assert run.errors == "snapd: line 2000002: expected `show W`\n", run


class Typed:
    """A script that is sent piece by piece, by a pipe."""

    def __init__(self, snapd):
        self.run = subprocess.Popen(
            [snapd.path, "script"], stdin=subprocess.PIPE, stdout=subprocess.PIPE, stderr=subprocess.PIPE, bufsize=0
        )

    def send(self, piece):
        self.run.stdin.write(piece.encode())

    def line(self):
        return self.run.stdout.readline().decode()

    def ends(self):
        """The rest of what it prints, and its status."""
        output, _ = self.run.communicate(timeout=PATIENCE)
        return output.decode(), self.run.returncode


def test_a_line_is_answered_before_the_next_one_is_sent(snapd, _):
    for rows in (BORROWED, WORKED):
        typed = Typed(snapd)
        for line, printed in rows:
            typed.send(line + "\n")
            assert typed.line() == printed + "\n", line
        assert typed.ends() == ("", 0)


def test_scripts_cut_at_every_byte(snapd, _):
    for rows in (BORROWED, WORKED):
        script, printed = (lines(it) for it in zip(*rows))
        typed = Typed(snapd)
        for byte in script:
            typed.send(byte)
        assert typed.ends() == (printed, 0)
        for place in range(1, len(script)):
            typed = Typed(snapd)
            typed.send(script[:place])
            whole = script[:place].count("\n")
            before = "".join(typed.line() for _ in range(whole))
            typed.send(script[place:])
            rest, status = typed.ends()
            assert (before + rest, status) == (printed, 0), place


def test_standard_input_that_fails(snapd, _):
    # A folder can be opened and not read.
    folder = os.open(snapd.folder, os.O_RDONLY)
    run = snapd("script", stdin=folder)
    os.close(folder)
    assert (run.status, run.output) == (1, b""), run
    assert run.errors.startswith("snapd: standard input: ") and run.errors.count("\n") == 1, run


def test_standard_output_that_fails(snapd, _):
    script = lines(["world 1 1", *["show 0"] * 2_000])
    # A flush that fails counts, whatever the end was to be.
    for it in (script, "world 1 1", "world 1 1\nshow\n"):
        with open("/dev/full", "wb") as full:
            run = snapd("script", stdin=it, stdout=full)
        assert run.status == 1 and run.errors.startswith("snapd: standard output: "), run
    reader, writer = os.pipe()
    os.close(reader)
    run = snapd("script", stdin=script, stdout=writer)
    os.close(writer)
    assert run.status == 1 and run.errors.startswith("snapd: standard output: "), run


def test_help(snapd, _):
    run = snapd("script", "--help")
    assert run.status == 0 and run.errors == "", run
    assert b"begin W HEX" in run.output and b"snapd script <<END" in run.output, run
    # The worked script of the help prints what the help says.
    text = run.output.decode()
    script = text.split("<<END\n")[1].split("END\n")[0]
    printed = text.split("END\n")[2]
    strip = lambda block: "".join(line.strip() + "\n" for line in block.splitlines() if line.strip())
    snapd("script", stdin=strip(script)).gave(0, strip(printed))
