"""Each listing of the clients' pages, and of the head of snapd_segment.h, runs unchanged: against the server in plain
Python and against `snapd serve`."""

import contextlib
import re
import shutil
import subprocess
import sys

from clients import ENVIRONMENT, STRICT, TOP, oracle
from program import Skipped
from serving import FRESH, Server, segments
from waiting import PATIENCE

PAGES = {it: (TOP / "clients" / it / "README.md").read_text() for it in ("python", "c")}
# What each of them prints, one after the other on a fresh segment and one that has come to number 2, and leaves in the
# first.
WANTED = {"python": [("1 False\n2 False\n", (1, b"17")), ("", (2, b"18")), ("b'17' 3\n", (3, b"17"))],
          "c": [("step 17\n", (1, b"step 17"))]}


def listings(language):
    found = re.findall(rf"^```{language}\n(.*?)^```$", PAGES[language], re.DOTALL | re.MULTILINE)
    assert len(found) == len(WANTED[language]) == len(re.findall(r"^```\w+$", PAGES[language], re.MULTILINE))
    return found


@contextlib.contextmanager
def served(snapd, is_real):
    """The address of a server with two segments, and a function that returns the first one's number and value."""
    if is_real:
        with Server(snapd, *segments(snapd, FRESH, [(1, b"ho"), (2, b"hi")])) as server:
            yield server.address, lambda: server.scan()[0]
    else:
        model = oracle.Model(2)
        model.segments[1].store(1, b"ho")
        model.segments[1].store(2, b"hi")
        with oracle.Server(model) as server:
            yield server.address, lambda: (model.segments[0].number, model.segments[0].value)


def gives(words, output, **more):
    run = subprocess.run(words, capture_output=True, text=True, timeout=2 * PATIENCE, **more)
    assert (run.returncode, run.stdout, run.stderr) == (0, output, ""), run


def compiled(snapd, source, address):
    """The path of a program of this source, with the port of an address in place of the one that the pages name."""
    (snapd.folder / "page.c").write_text(source.replace("7070", address.split(":")[1]))
    words = ["gcc", *STRICT, "-I", TOP / "clients" / "c", "-o", snapd.folder / "page", snapd.folder / "page.c"]
    subprocess.run(words, check=True)
    return snapd.folder / "page"


def all_run(snapd, is_real):
    with served(snapd, is_real) as (address, first):
        for listing, (output, held) in zip(listings("python"), WANTED["python"]):
            gives(
                [sys.executable, "-W", "error", "-c", listing.replace("127.0.0.1:7070", address)], output,
                env=ENVIRONMENT,
            )
            assert first() == held
    with served(snapd, is_real) as (address, first):
        for listing, (output, held) in zip(listings("c"), WANTED["c"]):
            gives([compiled(snapd, listing, address)], output)
            assert first() == held


def test_listings_of_the_clients_pages_run(program, _):
    all_run(program, is_real=False)


def test_listings_of_the_clients_pages_run_on_the_server(snapd, _):
    all_run(snapd, is_real=True)


COMPILERS = {"gcc": ("c99", "c11", "c17"), "clang": ("c99", "c11"), "g++": ("c++11", "c++17"), "clang++": ("c++11",)}


def test_both_headers_are_taken_by_all_compilers(program, _):
    """With every function in the program, with none, and as the library itself."""
    source = (
        '#define _POSIX_C_SOURCE 200809L\n#include "snapd.h"\n#include "snapd_segment.h"\n'
        'int main(void) { return 0; }\n'
    )
    strict = [it for it in STRICT if it != "-std=c99"]
    found = [it for it in COMPILERS if shutil.which(it)]
    for compiler in found:
        path = program.folder / ("both.cc" if "++" in compiler else "both.c")
        path.write_text(source)
        for standard in COMPILERS[compiler]:
            for way in ("-O3", "-DSNAPD_LINKED", "-DSNAPD_IMPLEMENTATION"):
                words = [compiler, *strict, f"-std={standard}", way, "-I", TOP / "clients" / "c", path]
                subprocess.run([*words, "-o", program.folder / "both"], check=True)
    if not found:
        raise Skipped("there is no compiler")


def test_head_of_the_second_header_runs(program, _):
    """On two segments that have come to 17, of which it puts the first one's next value."""
    head = (TOP / "clients" / "c" / "snapd_segment.h").read_text().partition("*/")[0]
    lines = [line.removeprefix(" *").strip() for line in head.splitlines() if line.startswith(" *     ")]
    assert len(lines) == 6 and lines[-1].startswith("snapd_wait(") and lines[0] == "snapd_entry mine;", lines
    begun = ["snapd_result ended = SNAPD_BAD_CALL;", 'snapd_open(&client, "127.0.0.1", 7070, 5000, 3);']
    ended = ["ended = " + lines[-1], "return ended == SNAPD_OK && number == 18 ? 0 : 1;"]
    source = "\n".join(["#define _POSIX_C_SOURCE 200809L", '#include "snapd_segment.h"', "static snapd_client client;",
                        "int main(void) {", *lines[:3], *begun, *lines[3:-1], *ended, "}", ""])
    model = oracle.Model(2)
    for segment in model.segments:
        segment.number = 17
    with oracle.Server(model) as server:
        gives([compiled(program, source, server.address)], "")
        assert (model.segments[0].number, model.segments[0].value) == (18, b"step 18")
