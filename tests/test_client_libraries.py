"""The client in C as a library: what `make clients` builds and exports, each way to link it, and its installation. And
what the header says of itself, and the addresses of host names."""

import os
import re
import shutil
import socket
import subprocess

from clients import STRICT, TOP, Deaf, Peer, ask, compiled, host_and_port, oracle, says
from preload import library
from program import Skipped
from waiting import PATIENCE

C = TOP / "clients" / "c"
CALLS = re.findall(r"^SNAPD_API .*?\b(snapd_\w+)\([^{]*?;$", "".join(it.read_text() for it in C.glob("*.h")), re.M)
SNAPSHOT = bytes.fromhex("0000000e8201" + "00" * 12)

# A program of two files, both of which call the client. What one stores the other reads.
FIRST = """
#include "snapd_segment.h"
#include <stdio.h>
#include <stdlib.h>

static snapd_client client;
int reads(snapd_client *from);

int main(int argc, char **argv)
{
    uint64_t number = 0;
    if (argc != 3 || snapd_open(&client, argv[1], atoi(argv[2]), 60000, 1) != SNAPD_OK)
        return 2;
    if (snapd_put(&client, 0, "hi", 2, &number) != SNAPD_OK)
        return 1;
    printf("%s %d\\n", snapd_result_name(SNAPD_OK), (int)number);
    return reads(&client);
}
"""
SECOND = """
#include "snapd_segment.h"
#include <stdio.h>

int reads(snapd_client *from);
int reads(snapd_client *from)
{
    snapd_entry entry;
    snapd_result result = snapd_get(from, 0, &entry);
    if (result == SNAPD_OK)
        printf("%.*s\\n", (int)entry.length, (const char *)entry.value);
    snapd_close(from);
    return result == SNAPD_OK ? 0 : 1;
}
"""
# Prints the header's version, and what each number is as a result.
NAMES = """
#include "snapd.h"
#include <stdio.h>

int main(void)
{
    puts(SNAPD_VERSION);
    for (int i = -1; i < 8; i++)
        puts(snapd_result_name((snapd_result)i));
    return 0;
}
"""


def wanted(program):
    """The path of a program that the test runs."""
    path = shutil.which(program)
    if path is None:
        raise Skipped(f"{program} isn't installed")
    return path


def printed(*words, **more):
    """What these words print, where they end well."""
    run = subprocess.run(list(map(str, words)), capture_output=True, text=True, timeout=2 * PATIENCE, **more)
    assert (run.returncode, run.stderr) == (0, ""), run
    return run.stdout


def built(folder):
    """What `make clients` builds, in a folder of its own."""
    printed(wanted("make"), "-s", "-C", TOP, "clients", f"CLIENTS={folder / 'built'}", "CC=gcc")
    return folder / "built"


def runs(folder, *words, env=None):
    """Compiles the program of two files with these words, and runs it."""
    for name, source in (("first.c", FIRST), ("second.c", SECOND)):
        (folder / name).write_text("#define _POSIX_C_SOURCE 200809L\n" + source)
    printed("gcc", *STRICT, "-o", folder / "both", folder / "first.c", folder / "second.c", *words)
    model = oracle.Model(1)
    with oracle.Server(model) as server:
        assert printed(folder / "both", *host_and_port(server.address), env=env) == "ok 1\nhi\n"
    assert (model.segments[0].number, model.segments[0].value) == (1, b"hi")


def exported(path, *more):
    """The names that a library exports, without their version."""
    rows = [line.split() for line in printed(wanted("nm"), "--defined-only", *more, path).splitlines()]
    return sorted(row[2].partition("@")[0] for row in rows if len(row) == 3 and row[1] != "A")


def test_a_program_of_two_files_is_linked_each_way(program, _):
    place = built(program.folder)
    runs(program.folder, "-I", C)
    runs(program.folder, "-I", C, "-DSNAPD_LINKED", C / "snapd.c")
    runs(program.folder, "-I", C, "-DSNAPD_LINKED", place / "libsnapd.a")
    env = {**os.environ, "LD_LIBRARY_PATH": str(place)}
    runs(program.folder, "-I", C, "-DSNAPD_LINKED", "-L", place, "-lsnapd", env=env)
    # The linker took the shared one, by its soname.
    assert "libsnapd.so.0 => " in printed(wanted("ldd"), program.folder / "both", env=env)


def test_the_libraries_export_the_calls_and_nothing_else(program, _):
    place = built(program.folder)
    assert len(CALLS) == len(set(CALLS)) == 11, CALLS
    assert exported(place / "libsnapd.so", "-D") == exported(place / "libsnapd.a", "-g") == sorted(CALLS)


def test_what_is_built_is_installed_and_pkg_config_finds_it(program, _):
    folder = program.folder.resolve()
    place, root = built(folder), folder / "usr"
    words = [wanted("make"), "-s", "-C", TOP, f"CLIENTS={place}", f"PROGRAM={shutil.which('true')}", f"PREFIX={root}"]
    printed(*words, "install")
    libraries = {"libsnapd.a", "libsnapd.so", "libsnapd.so.0", "pkgconfig", "pkgconfig/snapd.pc"}
    assert libraries <= {str(it.relative_to(root / "lib")) for it in (root / "lib").rglob("*")}
    env = {**os.environ, "PKG_CONFIG_PATH": str(root / "lib" / "pkgconfig"), "LD_LIBRARY_PATH": str(root / "lib")}
    if shutil.which("pkg-config"):
        assert printed("pkg-config", "--modversion", "snapd", env=env) == version() + "\n"
        runs(folder, *printed("pkg-config", "--cflags", "--libs", "snapd", env=env).split(), env=env)
    printed(*words, "uninstall")
    assert not [it for it in root.rglob("*") if not it.is_dir()]
    printed(*words, "install", f"CLIENTS={folder / 'none'}")
    assert not (root / "lib" / "libsnapd.a").exists()


def version():
    """The program's version, which is the clients' too."""
    source = (TOP / "crates" / "snap_args" / "src" / "grammar.rt").read_text()
    return re.search(r'^pub const VERSION: &str = "(.*)";$', source, re.M)[1]


def tried(folder, text, *words):
    """Status and errors of the compiler for a program of this text."""
    (folder / "tried.c").write_text(text)
    words = ["gcc", *words, "-I", C, "-o", folder / "tried", folder / "tried.c"]
    run = subprocess.run(words, capture_output=True, text=True)
    return run.returncode, run.stderr


def test_each_result_has_a_name_and_the_header_its_version(program, _):
    assert tried(program.folder, NAMES, "-std=gnu99", "-Wall", "-Wextra", "-Werror") == (0, "")
    names = ["unknown", "ok", "refused", "not answered", "timed out", "bad reply", "bad call", "no address", "unknown"]
    assert printed(program.folder / "tried").splitlines() == [version(), *names]
    of_header = re.search(r"^typedef enum \{(.*?)\} snapd_result;", (C / "snapd.h").read_text(), re.M | re.S)[1]
    found = re.findall(r"^    SNAPD_(\w+)", of_header, re.M)
    assert [it.lower().replace("_", " ") for it in found] == names[1:-1]


def test_a_system_that_hides_posix_is_told_of(program, _):
    for word in ("", "-D_POSIX_C_SOURCE=1", "-D_POSIX_C_SOURCE=199506L"):
        status, errors = tried(program.folder, NAMES, "-std=c99", *word.split())
        first = next(line for line in errors.splitlines() if " error: " in line)
        assert status != 0 and "define _POSIX_C_SOURCE 200809L" in first, errors


# ---- host names ----

def asked(*numbers, timeout=1000 * PATIENCE, port):
    """What a scan of a host name gives that has these addresses."""
    env = {**os.environ, "LD_PRELOAD": library("names"), "NAMES_OF": " ".join(("several.test", *numbers))}
    words = [compiled("ask"), "several.test", str(port), str(timeout), "1", "scan"]
    run = subprocess.run(words, env=env, capture_output=True, text=True, timeout=2 * PATIENCE)
    return run.returncode, run.stdout, run.stderr


def test_a_host_name_is_its_addresses_in_turn(_, __):
    for before in ((), ("::1",), ("127.0.0.2", "127.0.0.3", "::1")):
        with Peer(says(SNAPSHOT)) as peer:
            port = peer.listener.getsockname()[1]
            assert asked(*before, "127.0.0.1", port=port) == (0, "segment 0 number 0 value -\n", ""), before
    # The fifth address isn't used.
    with oracle.Server(oracle.Model(1)) as server:
        port = server.address.split(":")[1]
        numbers = [f"127.0.0.{i}" for i in (2, 3, 4, 5, 1)]
        assert asked(*numbers, port=port) == (1, "", "not answered\n")


def test_a_silent_address_leaves_time_for_the_next(_, __):
    with Deaf() as deaf:
        host, port = deaf.place
        assert asked(host, host, host, timeout=600, port=port) == (1, "", "timed out\n")
        peer = Peer(says(SNAPSHOT))
        peer.listener.close()
        peer.listener = socket.create_server(("127.0.0.2", port))
        with peer:
            assert asked(host, "127.0.0.2", timeout=4000, port=port) == (0, "segment 0 number 0 value -\n", "")


def test_a_name_without_an_address(_, __):
    assert ask("a..test:7070", "scan") == ask("a" * 64 + ".test:7070", "scan") == (1, "", "no address\n")
    with oracle.Server(oracle.Model(1)) as server:
        assert ask(f"localhost:{server.server_address[1]}", "scan") == (0, "segment 0 number 0 value -\n", "")
