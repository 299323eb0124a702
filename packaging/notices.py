"""Writes packaging/NOTICES: the crates of the kit that are linked into the program, with the files of their licences.

    python3 packaging/notices.py [--check]

With --check it writes nothing, and says whether the file differs. Package and tarball have the licences' texts, too.
"""

import pathlib
import sys

TOP = pathlib.Path(__file__).resolve().parent.parent
sys.path.insert(0, str(TOP / "verification"))

import kit  # noqa: E402

FILE = TOP / "packaging" / "NOTICES"
HEAD = """\
Crates of the Rattle kit that are linked into snapd, each with the files of its licence in the kit. {none} of these
{all} have none there, nor has the kit as a whole: under which licence they may be passed on, its makers have to say.
`python3 packaging/notices.py` writes this list.

"""


def licences():
    """The files of each linked crate's licence, by the crate's name."""
    rtlib = kit.load().rtlib
    program = next(it for it in rtlib.crates_below(str(TOP)) if it.name == "snapd")
    named = [name for it in [program, *program.below()] for name in it.of_kit]
    # A word is `NAME:USES=PATH/src/lib.rt`, or an option.
    words = [it.partition("=") for it in rtlib.kit_sources(named) if "=" in it]
    homes = {name.partition(":")[0]: pathlib.Path(root).parent.parent for name, _, root in words}
    return {name: sorted(it for it in homes[name].iterdir() if it.name.startswith("LICENSE")) for name in sorted(homes)}


def listed(found):
    head = HEAD.format(none=sum(not files for files in found.values()), all=len(found))
    return head + "".join(" ".join([name, *(it.name for it in files)]) + "\n" for name, files in found.items())


def with_texts(found):
    """The list, and then each text once, with the crates that have it."""
    crates = {}
    for name, files in found.items():
        for it in files:
            crates.setdefault(it.read_text(encoding="utf-8").strip(), []).append(f"{name}/{it.name}")
    return listed(found) + "".join(f"\n---- {', '.join(names)}\n\n{text}\n" for text, names in crates.items())


def main():
    text = listed(licences())
    if "--check" not in sys.argv:
        FILE.write_text(text, encoding="utf-8")
    elif not FILE.exists() or FILE.read_text(encoding="utf-8") != text:
        sys.exit("packaging/NOTICES isn't as the kit has it: run python3 packaging/notices.py")


if __name__ == "__main__":
    main()
