"""The words of each command: the message about wrong ones, to the byte and before anything is opened, and what right
ones mean."""

import contextlib
import os
import pathlib
import re
import select
import shlex
import stat
import time

import remedies
import segment_file as layout
from clients import Peer
from http_place import ANSWERED
from preload import library
from program import Run
from serving import FRESH, LOOPBACK, SCAN, STATUS, AtSocket, Server, frame, free_port, received, segments, snapshot
from serving import standings, update
from test_call_answers import silent
from test_doctor import STORES
from test_dump import document, entries_in, loaded
from test_folder import made
from test_http import part
from test_serve import HELD
from test_serve_puts import peer_of
from test_start_end import threads_of
from test_watch import Watch, row
from waiting import comes_to, wait_until

FORMATS = pathlib.Path(__file__).resolve().parent.parent / "docs" / "FORMATS.md"
MORE = "\n\nFor more information, try '--help'.\n"
TOO_LARGE = "number too large to fit in target type"
NO_FORM = "the request is not `put I`, `get I`, `update I NUMBER HEX`, `scan`, `part MASK`, `status` or `health`"


def are_refused(snapd, *rows):
    """Words, and what is said of them. No file is made, and none is looked for."""
    for words, why in rows:
        run = snapd(*shlex.split(words))
        assert run == Run(2, b"", f"snapd: error: {why}{MORE}"), (words, run)
    assert not list(snapd.folder.iterdir())


def not_in(what, least, most):
    return f"{what} not from {least} to {most}"


def no_value(option, word, why="invalid digit found in string"):
    return f"invalid value '{word}' for '{option}': {why}"


def unexpected(word, usage):
    return f"unexpected argument '{word}' found\n\nUsage: snapd {usage}"


def unknown_option(word, usage):
    return (
        f"unexpected argument '{word}' found\n\n  tip: to pass '{word}' as a value, use '-- {word}'\n\n"
        f"Usage: snapd {usage}"
    )


def missing(usage, *arguments):
    lacking = "".join(f"\n  {it}" for it in arguments)
    return f"the following required arguments were not provided:{lacking}\n\nUsage: snapd {usage}"


def twice(option, usage):
    return f"the argument '{option}' cannot be used multiple times\n\nUsage: snapd {usage}"


def wants_a_value(option):
    return f"a value is required for '{option}' but none was supplied"


# ---- wrong words: one file, a folder, a dump ----

OF_SERVE = "serve [OPTIONS] <ADDR> [FILE]..."
OF_CALL = "call [OPTIONS] <ADDR> <WORD>..."


def test_wrong_places_of_a_segment(snapd, _):
    are_refused(
        snapd,
        ("get F --index=1", "the index 1 is not below the count 1"),
        ("get F --count=0", not_in("the count 0 is", 1, 16)),
        ("get F --count=17", not_in("the count 17 is", 1, 16)),
        ("get F --index=-0", "the index is not a number from 0 to 255"),
        ("get F --count=-0", "the count is not a number from 0 to 255"),
        ("format F --index=16 --count=16", "the index 16 is not below the count 16"),
        ("put F --index=2 --count=2", "the index 2 is not below the count 2"),
        ("put F --count=17", not_in("the count 17 is", 1, 16)),
        ("migrate F G --index=1", "the index 1 is not below the count 1"),
        ("migrate F G --count=0", not_in("the count 0 is", 1, 16)),
        ("get F --index=x", no_value("--index <I>", "x")),
        ("get F G", unexpected("G", "get [OPTIONS] <FILE>")),
    )


def test_wrong_slots_of_a_check(snapd, _):
    no_slot = "the slot is not a number from 0 to 2"
    alone = "--slot S and --value are given together, and without --json"
    are_refused(
        snapd,
        ("check F --slot=3 --value", no_slot),
        ("check F --slot= --value", no_slot),
        ("check F --slot=0x1 --value", no_slot),
        ("check F --slot=1", alone),
        ("check F --value", alone),
        ("check F --slot=1 --value --json", alone),
    )


def test_wrong_words_of_a_folder(snapd, _):
    are_refused(
        snapd,
        ("init", missing("init <DIR>", "<DIR>")),
        ("init D --count=17", not_in("the count 17 is", 1, 16)),
        ("init D --count=0", not_in("the count 0 is", 1, 16)),
        ("doctor", missing("doctor <DIR>", "<DIR>")),
        ("serve A F --dir=D", "FILEs and --dir are given, and a server has either"),
    )


def test_wrong_words_of_a_dump_and_a_load(snapd, _):
    are_refused(
        snapd,
        ("dump D --tries 11", not_in("the number of tries 11 is", 1, 10)),
        ("dump D --timeout 0", not_in("the seconds of --timeout are", 1, 86_400)),
        ("dump D --tries 0", not_in("the number of tries 0 is", 1, 10)),
        ("dump A:1 --wait=86401", not_in("the seconds of --wait are", 1, 86_400)),
        ("load D F --count 17", not_in("the count 17 is", 1, 16)),
        ("load D F --count 0", not_in("the count 0 is", 1, 16)),
        ("load D F --count=-0", "the count is not a number from 0 to 255"),
    )


def test_wrong_words_of_help(snapd, _):
    are_refused(
        snapd,
        ("help serve x", f"unrecognized subcommand 'x'\n\nUsage: snapd {OF_SERVE}"),
        ("--man", unexpected("--man", "<COMMAND>")),
        ("put --man", unknown_option("--man", "put [OPTIONS] <FILE>")),
    )


# ---- wrong words: a server ----

def test_wrong_files_and_scanners_of_a_server(snapd, _):
    are_refused(
        snapd,
        ("serve", missing("serve <ADDR> [FILE]...", "<ADDR>")),
        ("serve A", "no FILE and no --dir is given"),
        (f"serve A {'1 ' * 17}", not_in("the number of files 17 is", 1, 16)),
        ("serve A F --scanners=0", not_in("the number of scanners 0 is", 1, 16)),
        ("serve A F --scanners=17", not_in("the number of scanners 17 is", 1, 16)),
        ("serve A F --scanners=256", no_value("--scanners <S>", 256, "256 is not in 0..=255")),
        ("serve A F --scanners=-0", "the scanners is not a number from 0 to 255"),
        ("serve A F --scanners x", no_value("--scanners <S>", "x")),
        ("serve A F --scanners", wants_a_value("--scanners <S>")),
        ("serve A F --room=1000", unknown_option("--room", "serve <ADDR> <FILE>...")),
        ("serve A F --more", unknown_option("--more", "serve <ADDR> <FILE>...")),
    )


def test_wrong_limits_of_a_server(snapd, _):
    clients = not_in("the clients of --clients-max are", 1, 1_000_000)
    idle = not_in("the seconds of --idle are", 1, 31_536_000)
    are_refused(
        snapd,
        ("serve A F --connections=-1", no_value("--connections <K>", -1)),
        ("serve A F --connections many", no_value("--connections <K>", "many")),
        (f"serve A F --connections {2**64}", no_value("--connections <K>", 2**64, TOO_LARGE)),
        ("serve A F --clients-max=0", clients),
        ("serve A F --clients-max=1000001", clients),
        ("serve A F --clients-max=4294967297", clients),
        ("serve A F --clients-max=-1", no_value("--clients-max <N>", -1)),
        ("serve A F --clients-max=", no_value("--clients-max <N>", "", "cannot parse integer from empty string")),
        ("serve A F --clients-max many", no_value("--clients-max <N>", "many")),
        ("serve A F --idle=0", idle),
        ("serve A F --idle=31536001", idle),
        (f"serve A F --idle={2**64 - 1}", idle),
        (f"serve A F --idle={2**64}", no_value("--idle <SECONDS>", 2**64, TOO_LARGE)),
        ("serve A F --idle=1.5", no_value("--idle <SECONDS>", 1.5)),
        ("serve A F --idle", wants_a_value("--idle <SECONDS>")),
        ("serve A F --idle=1 --idle=2", twice("--idle <SECONDS>", OF_SERVE)),
    )


def test_wrong_levels_of_a_log(snapd, _):
    no_level = "--log is not `error`, `warn`, `info` or `debug`"
    are_refused(
        snapd,
        ("serve A F --log=Info", no_level),
        ("serve A F --log warning", no_level),
        ("serve A F --log 2", no_level),
        ("serve A F --log", wants_a_value("--log <LEVEL>")),
    )


def test_wrong_addresses_of_a_server(snapd, _):
    no_mode = "the socket's mode is not an octal number from 0 to 777"
    are_refused(
        snapd,
        *(
            (f"serve A F --socket-mode={mode}", no_mode)
            for mode in ("1000", "8", "0o600", "", "-1", "u+rw", "7777", "99999999999999999999")
        ),
        ("serve A F --socket-mode=7 --socket-mode=7", twice("--socket-mode <MODE>", OF_SERVE)),
        ("serve A F --listen", wants_a_value("--listen <ADDR>")),
        (f"serve A F {'--listen=1 ' * 16}", not_in("the number of addresses 17 is", 1, 16)),
        ("serve A F --http=B --http=B", twice("--http <ADDR>", OF_SERVE)),
    )


# ---- wrong words: a call, a watch ----

def test_wrong_requests(snapd, _):
    are_refused(
        snapd,
        *((f"call A {words}", NO_FORM) for words in (
            "scan 0 1 61", "Update 0 1 61", "update", "update 0 1", "update 0 1 - -", "part", "part 0001 0002",
            "Part 0001", "0001", "scan 0001",
            "scan all", "status 0", "health 0", "health 1 00", "health health", "healthy", "Put 0", "gets 0",
        )),
        ("call", missing("call <ADDR> <WORD>...", "<ADDR>", "<WORD>...")),
        ("call A", missing("call <ADDR> <WORD>...", "<WORD>...")),
        ("call A scan --room 1", unknown_option("--room", "call <ADDR> <WORD>...")),
        ("call A scan --tries=0", not_in("the number of tries 0 is", 1, 10)),
        ("call A scan --tries=11", not_in("the number of tries 11 is", 1, 10)),
        ("call A scan --tries=-0", "the tries is not a number from 0 to 255"),
        ("call A scan --tries=x", no_value("--tries <T>", "x")),
        ("call A scan --tries", wants_a_value("--tries <T>")),
    )


def test_wrong_updates(snapd, _):
    no_segment = "the update's segment is not a number from 0 to 255"
    no_number = f"the update's number is not a number from 0 to {2**64 - 1}"
    are_refused(
        snapd,
        ("call A update 256 1 61", no_segment),
        ("call A update x 1 -", no_segment),
        (f"call A update 0 {2**64} 61", no_number),
        ("call A update 0 x -", no_number),
        *((f"call A update {words} -", unknown_option("-1", OF_CALL)) for words in ("-1 1", "0 -1")),
        *((f"call A update 0 1 {value}", "the update's value is not `-` or two hexadecimal digits for each byte")
          for value in ("6", "6g", "''", "abc", "xx")),
    )


def test_wrong_puts_and_gets(snapd, _):
    one = "a put is `put I`, of standard input or with --value, and a get is `get I`"
    alone = "--value and --after are for `put I` alone"
    no_get = "the segment to get is not a number from 0 to 15"
    are_refused(
        snapd,
        ("call A put", one),
        ("call A put 0 x", one),
        ("call A get", one),
        ("call A get 0 1", one),
        ("call A put 256", "the segment to put is not a number from 0 to 255"),
        ("call A put x", "the segment to put is not a number from 0 to 255"),
        ("call A get 16", no_get),
        ("call A get ''", no_get),
        ("call A get -1", unknown_option("-1", OF_CALL)),
        (f"call A put 0 --after={2**64 - 1}", not_in("the number after which it is stored is", 0, 2**64 - 2)),
        (f"call A put 0 --after={2**64}", no_value("--after <K>", 2**64, TOO_LARGE)),
        ("call A put 0 --after=x", no_value("--after <K>", "x")),
        ("call A put 0 --value", wants_a_value("--value <TEXT>")),
        ("call A put 0 --value x --value y", twice("--value <TEXT>", OF_CALL)),
        ("call A put --value=x", alone),
        ("call A get 0 --value=x", alone),
        ("call A scan --after=0", alone),
        ("call A scan --value x", alone),
        ("call A status --after 1", alone),
        ("call A update 0 1 00 --after 0", alone),
        (f"call A put 0 --value {'x' * 65_991}",
         "the update's value has 65991 bytes, and a request holds at most 65990"),
    )
    # With one byte less it is a value. What the address lacks is checked after the words.
    lacking = ":0: an address is HOST:PORT or unix:PATH, and the host is missing: give for example 127.0.0.1:7070"
    snapd("call", ":0", "put", 0, "--value", "x" * 65_990).gave(1, errors=f"snapd: {lacking}\n")


def test_wrong_masks(snapd, _):
    """Four hexadecimal digits that name a segment, and nothing else."""
    no_mask = "the part's mask is not four hexadecimal digits"
    wrong = (
        "''", "1", "9", "001", "00001", "00000", "+001", "+0001", "' 001'", "'001 '", "'00 1'", "0x01", "000g", "00g1",
        "\u00e901",
    )
    are_refused(
        snapd,
        ("call A part 0000", "the part's mask names no segment"),
        *((f"call A part {mask}", no_mask) for mask in wrong),
    )


def test_wrong_layouts_and_times_of_a_call(snapd, _):
    wait, timeout = (not_in(f"the seconds of --{what} are", 1, 86_400) for what in ("wait", "timeout"))
    no_layout = "--text and --json are for scan, part, status and health"
    are_refused(
        snapd,
        ("call A scan --wait=0", wait),
        ("call A scan --timeout=0", timeout),
        ("call A scan --timeout=86401", timeout),
        ("call A scan --timeout=1.5", no_value("--timeout <SECONDS>", 1.5)),
        ("call A scan --json --text", "--text and --json are given, and an answer is printed in one way"),
        ("call A scan --json=x",
         "unexpected value 'x' for '--json' found; no more were expected\n\nUsage: snapd call --json <ADDR> <WORD>..."),
        ("call A get 0 --text", no_layout),
        ("call A put 0 --json", no_layout),
        ("call A update 0 1 - --json", no_layout),
    )


def test_wrong_words_of_a_watch(snapd, _):
    no_segment = "a segment to show is not a number from 0 to 15"
    no_time = not_in("the milliseconds of --every are", 1, 86_400_000)
    are_refused(
        snapd,
        ("watch", missing("watch <ADDR> [SEGMENT]...", "<ADDR>")),
        ("watch A 16", no_segment),
        ("watch A 0 x", no_segment),
        ("watch A 0 16 15", no_segment),
        ("watch A ''", no_segment),
        ("watch A 256", no_segment),
        ("watch A --every=0", no_time),
        ("watch A --every=86400001", no_time),
        ("watch A --every=x", no_value("--every <MILLISECONDS>", "x")),
        ("watch A --text", unknown_option("--text", "watch <ADDR> [SEGMENT]...")),
    )


# ---- right words: one file, a folder, a dump ----

OPEN = '"state":"open"'
# What `check` prints of the slots and the answer of a file with `hi` as number 1; and all of it for segment 0 of 1 as
# JSON.
HI = "slot 0 open number 0 length 0\nslot 1 open number 1 length 2\nslot 2 closed\nanswer number 1\n"
HI_AS_JSON = (f'{{"header":"open","index":0,"count":1,"slots":[{{"slot":0,{OPEN},"number":0,"length":0}},'
              f'{{"slot":1,{OPEN},"number":1,"length":2}},{{"slot":2,"state":"closed"}}],"answer":1}}\n')
DUMP = document([(7, b"hi")])
# Words, standard input and what is printed, one command after the other in one folder, where OLD is of the old format.
COMMANDS = [
    ("format F", b"", "formatted 0 of 1\n"),
    ("put F", b"hi", "stored 1\n"),
    ("get F", b"", "hi"),
    ("check F", b"", f"header index 0 count 1\n{HI}"),
    ("check --json F", b"", HI_AS_JSON),
    ("put F", b"yo", "stored 2\n"),
    ("check F --value --slot=2", b"", "yo"),
    ("format G --index 15 --count 16", b"", "formatted 15 of 16\n"),
    ("put --count=16 G --index 15", b"hi", "stored 1\n"),
    ("check G", b"", f"header index 15 count 16\n{HI}"),
    ("migrate OLD NEW", b"", "migrated 0 of 1 number 1\n"),
    ("check NEW", b"",
     "header index 0 count 1\nslot 0 closed\nslot 1 open number 1 length 2\nslot 2 closed\nanswer number 1\n"),
    ("script", b"world 1 1\nscan 0\n", "world 1 1\nscanning\n"),
    ("init I1 --count=1", b"", made(1)),
    ("init --count=16 I2", b"", made(16)),
    ("init -- I3", b"", made(1)),
    ("init I3 --missing-empty", b"", made(1, kept=[(0, 0)])),
    ("load L1 dump", b"", loaded([(7, b"hi")], "L1")),
    ("load L2 -", DUMP, loaded([(7, b"hi")], "L2")),
    ("load --count=16 L3 dump", b"", loaded([(7, b"hi")], "L3", 16)),
    ("load L4 --count 1 -- -dump", b"", loaded([(7, b"hi")], "L4")),
]


def test_what_commands_on_files_do(snapd, _):
    """Without an option each has its default, and an option may come before the file."""
    snapd.file("OLD").write_bytes(layout.OLD.holding((0, b""), (1, b"hi")))
    for name in ("dump", "-dump"):
        snapd.file(name).write_bytes(DUMP)
    for words, given, printed in COMMANDS:
        run = snapd(*shlex.split(words), stdin=given)
        assert run == Run(0, printed.encode(), ""), (words, run)


def test_a_doctor_measures_where_it_is_told_to(snapd, _):
    snapd("init", "D").gave(0, made(1))
    for words, is_measured in (("doctor D", False), ("doctor D --measure", True), ("doctor --measure D", True)):
        run = snapd(*words.split())
        assert (
            (run.status, run.errors) == (0, "") and bool(STORES.search(run.output.decode())) == is_measured
        ), (words, run)


def test_a_dump_asks_an_address_and_reads_a_folder(snapd, _):
    """Of an address it says what a call says, and of a folder what makes it."""
    for address in (
        "A:1", ":0", "unix:", "unix:a", f"unix:{snapd.file('a')}", f"[::1]:{free_port()}", "a:b:70", "unix:a/b",
    ):
        asked, run = snapd("call", address, "scan"), snapd("dump", address)
        assert run == asked and run.status == 1, (address, run)
    for folder in ("D", "./a:1", "a:1/", "a:", "a:1b", "7070", "unix", "a:1:"):
        snapd("dump", folder).gave(1, errors=remedies.failed(folder, remedies.MISSING, remedies.no_folder(folder)))
    snapd("dump", "a/b:1").gave(1, errors=remedies.failed("a/b:1", remedies.MISSING, remedies.nowhere("a")))
    snapd("dump", "").gave(1, errors=remedies.failed("", remedies.MISSING))
    snapd("dump", ".").gave(3, errors="snapd: .: it has no segment file: make them with snapd init . --count N\n")
    # What is for a server alone changes nothing of a folder's dump.
    snapd("init", "D").gave(0, made(1))
    run = snapd("dump", "--tries=10", "D", "--timeout", "86400", "--wait=1")
    assert (run.status, run.errors) == (0, "") and entries_in(run.output) == FRESH, run


# ---- right words: a call ----

NUMBERS = standings((4, False), (7, False), (0, True))


def masks(*rows):
    """Each a call of a part, and what it sends."""
    return [(f"call A part {mask}", (part(bits), None)) for mask, bits in rows]


# Words, and each connection that is made for them, in order: what is sent, and the reply, or `None` for a connection
# that is closed. Standard input has `in`.
SENT = [
    ("call A scan", (SCAN, None)),
    ("call --tries=10 A status", *[(STATUS, None)] * 10),
    ("call A health --tries=2", *[(STATUS, None)] * 2),
    (f"call A update 255 {2**64 - 1} -", (update(255, 2**64 - 1), None)),
    ("call A update 0 1 6869fFFf --tries 3", *[(update(0, 1, b"hi\xff\xff"), None)] * 3),
    ("dump --tries=10 A", *[(SCAN, None)] * 10),
    ("dump A", (SCAN, None)),
    ("call A get 0", (part(0x0001), None)),
    ("call A get 15", (part(0x8000), None)),
    *masks(("0001", 0x0001), ("0009", 0x0009), ("0010", 0x0010), ("8000", 0x8000), ("1234", 0x1234)),
    *masks(("abcd", 0xABCD), ("ABCD", 0xABCD), ("aBcD", 0xABCD), ("ffff", 0xFFFF)),
    ("call A put 255", (STATUS, None)),
    ("call A put 1", (STATUS, NUMBERS), (update(1, 8, b"in"), None)),
    ("call A put 1 --value hi", (STATUS, NUMBERS), (update(1, 8, b"hi"), None)),
    ("call --value= A put 2", (STATUS, NUMBERS), (update(2, 1, b""), None)),
    ("call A put '--value=-x y' +2", (STATUS, NUMBERS), (update(2, 1, b"-x y"), None)),
    ("call A --after 0 put 255", (update(255, 1, b"in"), None)),
    (f"call A put 255 --after={2**64 - 2} --value=hi", (update(255, 2**64 - 1, b"hi"), None)),
]


def at(address, words):
    """The words, with this address in the place of A."""
    return [address if it == "A" else it for it in shlex.split(words)]


AGAIN = (
    "the connection ended before the reply: whether the request was done isn't known: "
    "send it again, since an update is stored once"
)


def test_what_a_call_sends(snapd, _):
    """To the byte, and on how many connections."""
    for words, *turns in SENT:
        with peer_of(*turns) as peer:
            run = snapd(*at(peer.address, words), stdin="in", env={"LD_PRELOAD": library("sleeps")})
        assert peer.heard == [it for it, _ in turns], (words, peer.heard)
        again = AGAIN
        if "put" in words and turns[-1][0] != STATUS:
            again = again.replace("again,", f"again with --after {int.from_bytes(turns[-1][0][6:14], 'big') - 1},")
        assert run == Run(1, b"", f"snapd: {peer.address}: {again}\n"), (words, run)


def test_how_long_an_answer_is_waited_for(snapd, _):
    listener, address = silent()
    with listener:
        for words, seconds in (
            ("call A --json status --timeout=1", 1), ("call A get 0 --timeout=+2", 2), ("dump A --timeout 1", 1),
        ):
            began = time.monotonic()
            run = snapd(*at(address, words))
            assert time.monotonic() - began > 0.9 * seconds, words
            run.failed_with(1, f"snapd: {address}: there was no answer within {seconds} s (--timeout)\n")


# ---- right words: a server ----

# A server's words, how many files and scanners it has, and how many connections are served where that is said.
SERVERS = [
    (f"{LOOPBACK} one/S0", 1, 4, None),
    (f"--scanners=16 {LOOPBACK} two/S0 --connections 2 two/S1", 2, 16, 2),
    (f"{LOOPBACK} --connections={2**64 - 1} -- -F", 1, 4, None),
    (f"{LOOPBACK} --dir D", 2, 4, None),
    (f"--dir=D --scanners=2 --log=warn {LOOPBACK}", 2, 2, None),
]


def test_what_files_and_scanners_a_server_has(snapd, _):
    for folder, *held in (("one", HELD), ("two", HELD, FRESH)):
        snapd.file(folder).mkdir()
        segments(snapd, *held, folder=folder)
    snapd("format", "--", "-F").gave(0, "formatted 0 of 1\n")
    snapd("init", "D", "--count", 2).gave(0, made(2))
    for words, files, scanners, connections in SERVERS:
        first, *more = words.split()
        with Server(snapd, *more, address=first) as server:
            assert (
                server.report.endswith(f"segments {files}\n")
                and ("S0" in words) == ("segment 0 number 1 " in server.report)
            ), words
            # Its own, the log's, one for each segment, and one for each scanner.
            comes_to(1 + 1 + files + scanners, lambda: threads_of(server))
            for _ in range(connections or 2):
                assert len(server.scan()) == files
            comes_to("--log=warn" not in words, lambda: bool(server.logged("INFO")))
            if connections:
                run = server.end()
                assert (run.status, run.output) == (0, f"served {connections}\n".encode()), (words, run)
            else:
                assert server.process.poll() is None, words
    run = snapd("serve", "--scanners=16", LOOPBACK, "two/S0", "--connections", 0, "two/S1")
    assert run.status == 0 and run.output.endswith(b"\nserved 0\n"), run
    # Sixteen files are not too many.
    snapd("serve", LOOPBACK, *["one/S0"] * 16).gave(
        1, errors="snapd: one/S0: it is the same file as one/S0: each file is named once\n"
    )


# A server's words, the addresses of which it says that it listens there, and the mode of the socket `c`.
REACHED = [
    ("unix:c one/S0", ["unix:c"], 0o600),
    ("unix:a one/S0 --listen unix:b --listen=unix:c --socket-mode 0660", ["unix:a", "unix:b", "unix:c"], 0o660),
    ("--listen=unix:c unix:b one/S0 --socket-mode=+7", ["unix:b", "unix:c"], 0o007),
    ("unix:c one/S0 --socket-mode=000777", ["unix:c"], 0o777),
    ("unix:c one/S0 --listen unix:d --socket-mode=0", ["unix:c", "unix:d"], 0o000),
]


def test_where_a_server_listens(snapd, _):
    snapd.file("one").mkdir()
    segments(snapd, FRESH, folder="one")
    for words, addresses, mode in REACHED:
        first, *more = words.split()
        with AtSocket(snapd, *more, address=first) as server:
            lines = [f"listening {server.address}", *server.printed(len(addresses) - 1)]
            assert lines == [f"listening {it}" for it in addresses], words
            assert stat.S_IMODE(os.lstat(snapd.file("c")).st_mode) == mode, words
        # A user who may not use a socket can't find out that no server has it.
        snapd.file("c").unlink()
    # One that leaves the port to the system may be given twice.
    run = snapd("serve", LOOPBACK, "one/S0", "--listen", LOOPBACK, "--connections", 0)
    first, second = re.findall(r"listening 127\.0\.0\.1:(\d+)\n", run.output.decode())
    assert run.status == 0 and first != second, run


def test_where_a_server_answers_browsers(snapd, _):
    """Where the words say it, and else nowhere."""
    files = segments(snapd, FRESH)
    with AtSocket(snapd, *files, address="unix:a", more=("--http", LOOPBACK, "--listen=unix:b")) as server:
        assert server.printed(1) == ["listening unix:b"]
        comes_to(1, lambda: len(server.logged("INFO", "http")))
        assert ANSWERED.fullmatch(server.logged("INFO", "http")[0])
    with Server(snapd, *files) as server:
        comes_to(1, lambda: len(server.logged("INFO", "server")))
        assert not server.logged("INFO", "http")
    snapd("init", "D").gave(0, made(1))
    no_port = "unix:w: HTTP is answered at HOST:PORT: give for example 127.0.0.1:7080"
    snapd("serve", LOOPBACK, "--dir", "D", "--http=unix:w").gave(1, errors=f"snapd: {no_port}\n")


# A server's words after its file, whether a second client waits for the first one to close, whether one is closed that
# is silent for a second, and the levels of its lines.
LEVELS = ["WARN", "INFO", "DEBUG"]
LIMITED = [
    ("", False, False, LEVELS[:2]),
    ("--clients-max 1 --idle=1 --log=error", True, True, []),
    ("--clients-max=1000000 --log warn", False, False, LEVELS[:1]),
    ("--idle=31536000 --log debug", False, False, LEVELS),
    ("--log=info", False, False, LEVELS[:2]),
    ("--connections=7 --idle +1", False, True, LEVELS[:2]),
]
EMPTY = snapshot((0, b""))


def test_what_a_server_lets_in_and_logs(snapd, _):
    with contextlib.ExitStack() as all_of_it:
        begin, servers, talks = all_of_it.enter_context, [], []
        for number, (words, *wanted) in enumerate(LIMITED):
            snapd.file(str(number)).mkdir()
            # At the second address each warns that may.
            more = ("--listen", "0.0.0.0:0", *words.split())
            servers.append(
                (words, *wanted, begin(Server(snapd, *segments(snapd, FRESH, folder=str(number)), more=more)))
            )
        for words, waits, is_let_go, _, server in servers:
            began, first, second = time.monotonic(), begin(server.connect()), begin(server.connect())
            talks.append((words, waits, is_let_go, began, first, second))
            second.sendall(SCAN)
            # Once the first one is closed there is room.
            assert (
                is_quiet(second, 0.1) or time.monotonic() - began > 0.9
                if waits
                else received(second, len(EMPTY)) == EMPTY
            ), words
        for words, _, is_let_go, began, first, _ in talks:
            assert not is_let_go or first.recv(1) == b"" and time.monotonic() - began >= 1, words
        time.sleep(0.3)
        for words, waits, is_let_go, _, first, second in talks:
            assert is_let_go or is_quiet(first), words
            assert not waits or received(second, len(EMPTY)) == EMPTY, words
            first.close()
            second.close()
        for _turn in range(2):
            for _, _, _, levels, server in servers:
                comes_to(levels, lambda: [it for it in LEVELS if server.logged(it)])


def is_quiet(stream, seconds=0):
    """Whether nothing comes from it for this time, and no end."""
    return not select.select([stream], [], [], seconds)[0]


# ---- right words: a watch ----

def looked_at(times):
    """Answers each poll with sixteen new segments, and records its time."""
    def handle(_peer, stream):
        with contextlib.suppress(OSError):
            while head := received(stream, 4):
                asked = received(stream, int.from_bytes(head, "big"))
                if asked == b"\x03":
                    times.append(time.monotonic())
                    stream.sendall(standings(*[(0, False)] * 16))
                elif asked == b"\x02":
                    stream.sendall(snapshot(*[(0, b"")] * 16))
                else:
                    named = [it for it in range(16) if int.from_bytes(asked[1:], "big") >> it & 1]
                    stream.sendall(frame(bytes([0x84, len(named)]) + b"".join(bytes([it]) + bytes(12) for it in named)))
    return handle


def row_of(segment):
    return row(segment, 0, 'text ""')


def object_of(segment):
    return f'{{"segment":{segment},"number":0,"fenced":false,"text":""}}'


# Words, and the lines that are printed first.
WATCHES = [
    ("A", [row_of(it) for it in range(16)]),
    ("A 3 0 3", [row_of(0), row_of(3)]),
    ("--json A 15 --every=1", [object_of(15)]),
    ("--every 86400000 A +7", [row_of(7)]),
    ("A 015 --json", [object_of(15)]),
]


def test_what_a_watch_shows_and_how_often_it_looks(snapd, _):
    """Each second, where the words say nothing of that."""
    all_times = [[] for _ in WATCHES]
    with contextlib.ExitStack() as all_of_it:
        for (words, wanted), times in zip(WATCHES, all_times):
            peer = all_of_it.enter_context(Peer(looked_at(times)))
            first, *more = at(peer.address, words)
            watch = all_of_it.enter_context(Watch(snapd, first, *more, often=()))
            assert watch.lines(len(wanted)) == wanted, words
        wait_until(lambda: len(all_times[0]) > 2 and len(all_times[2]) > 20, "the third look")
        usual, named, often, seldom, _ = map(gaps_in, all_times)
        assert (
            min(usual + named) > 0.95 and min(usual) < 5 and min(often) < 0.5 and not seldom
        ), (usual, named, often, seldom)


def gaps_in(times):
    return [then - now for now, then in zip(times, times[1:])]


# ---- help ----

# Whole lines of each command's help.
HELP = [
    *((command, "  <FILE>  The path of the segment's file") for command in ("format", "put", "get", "check")),
    ("migrate", "  <OLD>  The path of the file of the old format"),
    ("init", "  <DIR>  The path of the folder, which is made where it isn't there"),
    ("doctor", "  <DIR>  The path of the folder"),
    ("serve", "  [FILE]...  The files, in order of segment: 1 to 16"),
    ("serve", "from 0 in the order of the files and N is how many there are. All files are locked while it runs:"),
    ("serve", "with --http 100, that it needs itself. Further callers wait. A scanner answers one request after the"),
    ("serve", "There is no login: anyone who can connect to ADDR may read and write all segments. Use unix:PATH,"),
    ("serve", "      --dir <DIR>           The folder of the files, in place of these"),
    ("serve", "      --clients-max <N>     The most connections that are open at once, 1 to 1000000"),
    ("serve", "      --idle <SECONDS>      Close a connection that was silent for this many seconds, 1 to 31536000"),
    ("serve", "      --log <LEVEL>         The lowest level of a line on standard error: "
              "error, warn, info or debug [default: info]"),
    ("serve", "Killing it is a proper stop, by SIGTERM or any other signal that ends it, at any time: what was"),
    ("serve", "Exit status:"),
    ("call", "an update whose number is stored already isn't stored twice. A put asks twice, each up to T times."),
    ("call", "      --timeout <SECONDS>  End if there is no answer for this many seconds, 1 to 86400"),
    ("call", "      --text               Print each value as text, if it is printable"),
    ("call", "      --json               Print the answer as JSON, on one line"),
    ("call", '"text" where it is UTF-8, and else under "base64".'),
    ("call", "      --value <TEXT>       The value of a put, in place of standard input; --value=TEXT where it begins "
             "with -"),
    ("call", "      --after <K>          Store number K + 1, without asking for the segment's number"),
    ("call", "  put I                store standard input as the next value of segment I; prints `stored K`"),
    ("call", "  get I                prints the value of segment I, byte for byte, and nothing else"),
    ("call", "  health               prints `healthy`; or `fenced I` for each fenced segment, with status 3"),
    ("call", "  part MASK            the same of the segments that MASK names, and of no other one"),
    ("watch", "  [SEGMENT]...  The segments to show, 0 to 15; all where none is given"),
    ("watch", "      --every <MILLISECONDS>  Milliseconds between two polls, 1 to 86400000; else 1000"),
]


def test_lines_of_help(snapd, _):
    for command, line in HELP:
        run = snapd(command, "--help")
        lines = run.output.decode().splitlines()
        assert (
            (run.status, run.errors) == (0, "") and line in lines and {"Example:", "Examples:"} & set(lines)
        ), (command, line)
        assert snapd(command, "-h") == snapd("help", command) == run, command


# The least words of each command of which no file and no server is there, and how many ranges its help has.
LEAST = {
    "format no/F": 1, "put no/F": 1, "get no/F": 1, "check no/F --value": 1, "migrate no/F no/G": 1, "init no/D": 1,
    "doctor no/D": 0, "serve A no/F": 3, "call A scan": 3, "watch A": 1, "dump no/D": 3, "load no/D no/F": 1,
}


def test_help_has_the_ranges_that_are_taken(snapd, _):
    """The least and the most of each are taken, and one less or one more isn't."""
    for words, count in LEAST.items():
        text = snapd(words.split()[0], "--help").output.decode()
        found = re.findall(r"^ +--([a-z-]+) <\w+> +.*?\b(\d+) to (\d+)\b", text, re.M)
        assert len(found) == count, (words, found)
        for option, *ends in found:
            least, most = map(int, ends)
            for number in (least - 1, least, most, most + 1):
                run = snapd(*words.split(), f"--{option}={number}")
                assert run.output == b"" and (run.status == 2) == (not least <= number <= most), (words, option, run)


# What help says of how commands end.
STATUSES = {
    "": [
        "0  done", "1  a path, an address, a connection or a standard stream failed", "2  the words can't be read",
        "3  refused; the number and the name of the refusal are on standard error",
    ],
    "serve": [
        "0  K connections were served", "1  a file, ADDR, standard output or accepting failed",
        "2  the words can't be read",
        "3  a file was refused, or memory ran out; the number and the name are on standard error",
    ],
    "call": [
        "0  done", "1  no connection gave an answer, or standard output failed; an update may have been stored; or",
        "   standard input failed", "2  the words can't be read",
        "3  refused, with `snapd: refused CODE NAME DETAIL` on standard error, or memory ran out; or",
        "   `health` found a fenced segment; or a put's input is too long",
    ],
    "watch": [
        "1  no connection gave a first answer, or standard output failed", "2  the words can't be read",
        "3  refused, with `snapd: refused CODE NAME DETAIL` on standard error, as for a SEGMENT that the",
        "   server doesn't have; or memory ran out",
    ],
}


def test_statuses_in_help(snapd, _):
    for command, wanted in STATUSES.items():
        text = snapd(*command.split(), "--help").output.decode()
        told = text.partition("\nExit status:\n")[2].partition("\n\n")[0].rstrip("\n")
        assert told.split("\n") == [f"  {it}" for it in wanted], (command, told)


def test_refusals_in_help_have_their_numbers(snapd, _):
    """Those of docs/FORMATS.md."""
    names = dict(re.findall(r"^\| (\d+) \| ([A-Z]\w+) \|", FORMATS.read_text(), re.M))
    assert len(names) == 17
    told = []
    for command in dict.fromkeys(it for it, _ in HELP):
        told += re.findall(r"\b(\d+) ([A-Z][a-z]+[A-Z]\w*|Conflict)\b", snapd(command, "--help").output.decode())
    assert len(told) == 6 and all(names[number] == name for number, name in told), told
