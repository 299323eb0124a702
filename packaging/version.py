"""Writes the program's version, which stands in crates/snap_args/src/grammar.rt alone, where else it is told.

    python3 packaging/version.py [--check]

With --check it writes nothing, and names each file that tells another version. CHANGELOG.md has a section of each
version, which somebody has to write.
"""

import pathlib
import re
import sys

TOP = pathlib.Path(__file__).resolve().parent.parent
SOURCE = TOP / "crates" / "snap_args" / "src" / "grammar.rt"
# What stands before and after the version, by file.
PLACES = {
    "clients/python/pyproject.toml": (r'^version = "', '"'),
    "clients/python/snapd_client/__init__.py": (r'^__version__ = "', '"'),
    "clients/c/snapd.h": (r'^#define SNAPD_VERSION "', '"'),
    "packaging/snapd.1": (r'^\.TH SNAPD 1 "" "snapd ', '"'),
    "packaging/kubernetes/snapd-board.yaml": (r"image: .*/snapd-board:", "$"),
}


def version():
    return re.search(r'^pub const VERSION: &str = "([0-9.]+)";$', SOURCE.read_text(encoding="utf-8"), re.M)[1]


def written(name, wanted):
    """The text of a file as it is, and as it is to be."""
    before, after = PLACES[name]
    text = (TOP / name).read_text(encoding="utf-8")
    new, count = re.subn(rf"({before})[^\"\n]*?({after})", rf"\g<1>{wanted}\g<2>", text, flags=re.M)
    if count != 1:
        sys.exit(f"{name} doesn't tell the version where version.py looks for it")
    return text, new


def main():
    wanted, differ = version(), []
    for name in PLACES:
        text, new = written(name, wanted)
        if text != new:
            differ.append(name)
            if "--check" not in sys.argv:
                (TOP / name).write_text(new, encoding="utf-8")
    if not re.search(rf"^## {re.escape(wanted)}\b", (TOP / "CHANGELOG.md").read_text(encoding="utf-8"), re.M):
        sys.exit(f"CHANGELOG.md has no section of {wanted}")
    if differ and "--check" in sys.argv:
        sys.exit(f"another version than {wanted}: {', '.join(differ)}: run python3 packaging/version.py")


if __name__ == "__main__":
    main()
