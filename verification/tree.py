"""The crates of a checkout, as crates.txt lists them, and copies of them for the prover."""

import contextlib
import pathlib
import re
import shutil
import sys
import tempfile
from collections import namedtuple

from source import without_comments

TOP = pathlib.Path(__file__).resolve().parent.parent
# A line of crates.txt: the crate's name with the words that belong to it, and what it uses.
LINE = re.compile(r"^((\w+)[^:#\n]*:([^#\n]*).*)$", re.M)
Crate = namedtuple("Crate", "line uses")


def crates_of(top):
    """The crates of a checkout, by name."""
    lines = LINE.findall((top / "crates.txt").read_text())
    return {name: Crate(" ".join(line.split()), tuple(uses.split())) for line, name, uses in lines}


def parsed(words, names):
    """A command's words, with names of crates behind them. Ends the program where one of these is no crate."""
    words.add_argument("names", nargs="*", metavar="NAME", help=names)
    words, crates = words.parse_args(), crates_of(TOP)
    if strange := [it for it in words.names if it not in crates]:
        sys.exit(f"crates.txt has no {', '.join(strange)}")
    return words


def below(crates, name):
    """The crates of the checkout that this one uses, directly or not, each after those that it uses itself."""
    found = [it for used in crates[name].uses if used in crates for it in [*below(crates, used), used]]
    return list(dict.fromkeys(found))


def with_below(crates, names):
    """These crates and all that they use."""
    return {it for name in names for it in [*below(crates, name), name]}


def texts_of(folder):
    """What the prover reads of a crate: each file's name and its text without comments, in a fixed order."""
    files = sorted(it for part in ("src", "specs", "proofs") for it in (folder / part).rglob("*") if it.is_file())
    return [part for it in files for part in (str(it.relative_to(folder)), without_comments(it))]


def proved_crates(top):
    """The crates that are proved: the program, all crates that it uses, and the laws. Crates of tests, and programs
    that tests run, are built without proofs and run."""
    return [it for it in crates_of(top) if not it.startswith(("try_", "tests_"))]


@contextlib.contextmanager
def copied(top, names, edits=()):
    """A copy of these crates in a temporary folder, of their edits only with these, pairs of crate and path."""
    with tempfile.TemporaryDirectory(prefix="snapd-proofs-") as room:
        copy = pathlib.Path(room) / "main"
        # The prover takes a folder with a .git for the top of a repository.
        (copy / ".git").mkdir(parents=True)
        shutil.copy(top / "HANDLES", copy)
        lines = [f"{it.line}\n" for name, it in crates_of(top).items() if name in names]
        (copy / "crates.txt").write_text("".join(lines))
        for name in names:
            left = shutil.ignore_patterns("out", "*.edit")
            shutil.copytree(top / "crates" / name, copy / "crates" / name, ignore=left)
        for name, path in edits:
            shutil.copy(path, copy / "crates" / name / "must-fail")
        yield copy
