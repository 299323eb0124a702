"""What an address lacks is said before anything is opened; and all commands,
help and documents show one port and one kind of file."""

import pathlib
import re

import remedies
import segment_file as layout
from preload import library
from serving import FRESH, Server, segments

TOP = pathlib.Path(__file__).resolve().parent.parent
LACKS = {
    ":0": "the host is",
    ":7070": "the host is",
    "7070": "the host is",
    "127.0.0.1": "the port is",
    "127.0.0.1:": "the port is",
    "localhost": "the port is",
    "localhost:": "the port is",
    "[::1]": "the port is",
    "[::1]:": "the port is",
    "::1": "the port is",
    "::": "the port is",
    "fe80::1": "the port is",
    "1:2:3:4:5:6:7:8": "the port is",
    "unix": "the port is",
    "": "both are",
    ":": "both are",
}
# What lacks nothing, whether the system takes it or not.
WHOLE = (
    "127.0.0.1:7070", "127.0.0.1:0", "0.0.0.0:0", "[::1]:7070", "[::1]:0", "localhost:7070", "::1:7070", "::1:0", "a:b",
    "a:b:c", "a:70707", "127.0.0.1:70707", "0:0", "unix:7070", "unix:/run/a:b",
)
# What means all addresses of a machine, in any form that the system reads, and what doesn't.
EVERYWHERE = (
    "0.0.0.0:0", "[::]:0", "[::0]:0", "[0:0:0:0:0:0:0:0]:0", "[::ffff:0.0.0.0]:0", ":::0", "0:0", "0.0:0",
    "00.0x0.0.0:0", "0x00:0", "0.0.0.0:70707",
)
SOMEWHERE = (
    "127.0.0.1:0", "[::1]:0", "localhost:0", "10.0.0.0:0", "0.0.0.1:0", "[::ffff:127.0.0.1]:0", "::1:0", "x:0", "0x:0",
    ".:0",
)


def lacking(address):
    return (
        f"snapd: {address}: an address is HOST:PORT or unix:PATH, and {LACKS[address]} missing: "
        "give for example 127.0.0.1:7070\n"
    )


def test_an_address_that_lacks_a_part(snapd, _):
    for address in LACKS:
        # The file isn't there, which is said where it is opened first.
        snapd("serve", address, "missing").gave(1, errors=lacking(address))
        for request in (("scan",), ("part", "0001"), ("status",)):
            snapd("call", address, *request, "--tries", 10).gave(1, errors=lacking(address))


def test_what_lacks_nothing_goes_to_the_system(snapd, _):
    for address in WHOLE:
        snapd("serve", address, "missing").gave(
            1, errors=remedies.failed("missing", remedies.MISSING, remedies.no_file("missing"))
        )
    for address in ("a:b", "127.0.0.1:70707"):
        snapd("call", address, "scan").gave(1, errors=f"snapd: {address}: invalid port value\n")


def test_words_are_judged_before_the_address(snapd, _):
    assert snapd("serve", ":0").status == 2
    assert snapd("serve", ":0", "F", "--scanners", 0).status == 2
    assert snapd("call", ":0", "frobnicate").status == 2
    assert snapd("call", ":0", "part", "0000").status == 2


def test_all_addresses_are_served(snapd, _):
    """Whatever is said of it on standard error."""
    server = Server(snapd, *segments(snapd, FRESH), address="0.0.0.0:0")
    with server:
        port = server.address.rpartition(":")[2]
        snapd("call", f"127.0.0.1:{port}", "scan").gave(0, "segment 0 number 0 value -\n")


def test_each_form_of_all_addresses_is_warned_of(snapd, _):
    """Before it is bound, so also where it can't be."""
    files = segments(snapd, FRESH)
    for address in EVERYWHERE + SOMEWHERE:
        lines = snapd("serve", address, *files, "--connections", 0, "--log", "warn").errors.splitlines()
        warnings = [
            it
            for it in lines
            if it.endswith(f" WARN accept: {address}: whoever reaches this machine may read and update each segment")
        ]
        assert len(warnings) == (address in EVERYWHERE), (address, lines)


EMPTY = "segment 0 number 0 value -\n"


def test_any_port_is_told_as_the_one_that_it_is(snapd, _):
    """Port 0 asks the system for one: each server has its own, says which, and is answered for there."""
    for name in ("A", "B"):
        snapd.file(name).write_bytes(layout.holding(*FRESH))
    with Server(snapd, "A", address="127.0.0.1:0") as first, Server(snapd, "B", address="127.0.0.1:0") as second:
        assert first.place[0] == second.place[0] == "127.0.0.1"
        assert 0 < first.place[1] != second.place[1] > 0, (first.address, second.address)
        for server in (first, second):
            snapd("call", server.address, "scan").gave(0, EMPTY)


def named(*addresses):
    """The environment in which `two.test` has these two addresses. No machine has one of those for documents."""
    return {"LD_PRELOAD": library("lookups"), "LOOKUPS": " ".join(("two.test", *addresses))}


def test_a_name_of_two_addresses(snapd, _):
    """They are tried in order, and the one that is bound is printed."""
    files = segments(snapd, FRESH)
    for addresses, bound in (
        (("203.0.113.1", "127.0.0.1"), "127.0.0.1"),
        (("127.0.0.1", "203.0.113.1"), "127.0.0.1"),
        (("127.0.0.2", "127.0.0.1"), "127.0.0.2"),
    ):
        with Server(snapd, *files, address="two.test:0", env=named(*addresses)) as server:
            assert server.place[0] == bound and server.place[1] > 0, (addresses, server.address)
            snapd("call", server.address, "scan").gave(0, EMPTY)


def test_a_name_of_which_no_address_can_be_bound(snapd, _):
    run = snapd("serve", "two.test:0", *segments(snapd, FRESH), env=named("203.0.113.1", "198.51.100.1"))
    assert run.status == 1 and b"listening" not in run.output, run
    assert run.errors.startswith("snapd: ") and run.errors.count("\n") == 1, run


# ---- one port and one kind of file ----

SHOWN = [TOP / "README.md", *sorted((TOP / "docs").glob("*.md")), *sorted((TOP / "clients").glob("*/README.md"))]


def texts(snapd):
    """The documents and the help of each command, by name."""
    for path in SHOWN:
        yield str(path.relative_to(TOP)), path.read_text()
    for command in ("format", "put", "get", "check", "migrate", "serve", "call", "script"):
        yield command, snapd(command, "--help").output.decode()
    yield "snapd", snapd("--help").output.decode()


def test_one_port_is_shown(snapd, _):
    """In each address with one: 0 asks the system for any, 7080 is where HTTP is answered,
    and a second board has 7071 and 7081."""
    found = 0
    for name, text in texts(snapd):
        for port in re.findall(r"(?:127\.0\.0\.1|localhost|0\.0\.0\.0|\[::1?\])[: ](\d+)", text):
            assert port in ("7070", "7080", "7071", "7081", "0"), (name, port)
            found += 1
    assert found > 10


def test_one_kind_of_file_is_shown(snapd, _):
    """In commands on files: names end in `.seg`, or are to be replaced; `.new` is renamed at once."""
    found = 0
    command = re.compile(r"snapd (?:format|put|get|check|migrate|serve)((?: [^\s`|>&;]+)+)")
    for name, text in texts(snapd):
        for words in command.findall(text):
            # (no address, as 127.0.0.1 or localhost:0)
            for file in re.findall(r" \"?([\w$/-]+\.[a-z]+)\b", words):
                assert file.endswith((".seg", ".new")), (name, file)
                found += 1
    assert found > 20
