"""The tables of the documents that are drawn from the source.

    python3 docs/tables.py             writes the table of crates in ARCHITECTURE: of each what its source says first
    python3 docs/tables.py contracts   prints the table of contracts: the public functions that have one
"""

import pathlib
import re
import sys

sys.path.insert(0, str(pathlib.Path(__file__).resolve().parent.parent / "verification"))

from source import HEAD, functions_in  # noqa: E402
from tree import TOP, crates_of, proved_crates  # noqa: E402

INTRODUCTION = """# Contracts

The public functions and the methods of traits that have an `ensures`, of each proved crate, with the names of their
clauses; one without a name is `ensures`. `refusals` says which refusals may come, `calls` and `counts` how many calls
of a device are made, `honest` that a device which is honest now was so before. What they are for is in
[PROMISES.md](docs/PROMISES.md)."""
DOCUMENT = TOP / "docs" / "ARCHITECTURE.md"
BEGIN = "<!-- the table of crates, written by docs/tables.py -->\n"
END = "<!-- the end of the table of crates -->\n"


def head_of(crate):
    """The path of the crate's first file, and the first paragraph of what it says of itself, on one line."""
    [file] = [it for it in (TOP / "crates" / crate / "src" / name for name in ("lib.rt", "main.rt")) if it.exists()]
    head = re.match(r"(?://!.*\n)+", file.read_text())[0]
    text = " ".join(line[3:].strip() for line in head.split("\n//!\n")[0].splitlines())
    # What it links by a name alone, a document can't.
    return file.relative_to(TOP), re.sub(r"\[(`[^`]+`)\](?:\([^)]*\))?", r"\1", text)


def table():
    """A row for each crate, in the order of crates.txt."""
    rows = ["| Crate | What it is |", "|---|---|"]
    for crate in crates_of(TOP):
        file, head = head_of(crate)
        rows.append(f"| [{crate}](../{file}) | {head} |")
    return "".join(f"{row}\n" for row in rows)


def written(text):
    """The document's text, with the table as it is now."""
    before, rest = text.split(BEGIN)
    return f"{before}{BEGIN}\n{table()}\n{END}{rest.split(END)[1]}"


def rooms():
    """Each room of crates.txt, with its crates that are proved."""
    proved = proved_crates(TOP)
    for part in re.split(r"^# ", (TOP / "crates.txt").read_text(), flags=re.M)[2:]:
        names = [line.split()[0].rstrip(":") for line in part.splitlines()[1:] if line]
        yield part.partition(":")[0], [it for it in names if it in proved]


def contract_of(lines, first):
    """The head of a function with its clauses: up to its body, or to the semicolon of one that is declared alone."""
    start = next(at for at in range(first - 1, len(lines)) if HEAD.match(lines[at]))
    for end in range(start, len(lines)):
        text = "\n".join(lines[start : end + 1])
        is_declared = text.endswith(";") and text.count("{") == text.count("}")
        # (a law has no body)
        is_whole = lines[end].rstrip("}") == HEAD.match(lines[start])[1] + "{"
        if is_declared or is_whole or text.endswith("{") and "ensures" not in text:
            return text


def functions_of(folder):
    """Each function that others may call and that has a contract: its name after its type's, its file, its clauses."""
    for file in sorted((folder / "src").rglob("*.rt")):
        text = file.read_text()
        for function in functions_in(text):
            contract, of = contract_of(text.split("\n"), function.first) or "", function.of.replace("->", "")
            while "<" in of:
                of = re.sub(r"<[^<>]*>", "", of)
            home = re.match(r"(?:.* for|impl|.*trait) (?:\w+::)*(\w+)", of)
            clauses = [name or "ensures" for name in re.findall(r"^ *ensures (\w*)", contract, re.M)]
            if clauses and ("trait " in of or re.match(r" *pub (?:const )?fn ", contract)):
                yield f"{home[1]}::{function.name}" if home else function.name, file.relative_to(TOP), clauses


def contracts():
    lines = [INTRODUCTION]
    for room, names in rooms():
        lines += ["", f"## {room}"]
        for name in names:
            found = functions_of(TOP / "crates" / name)
            rows = [f"| [`{it}`]({file}) | `{'`, `'.join(clauses)}` |" for it, file, clauses in found]
            lines += ["", f"| `{name}` | Clauses |", "|---|---|", *rows] if rows else []
    return "\n".join(lines) + "\n"


if __name__ == "__main__":
    if sys.argv[1:] == ["contracts"]:
        print(contracts(), end="")
    else:
        DOCUMENT.write_text(written(DOCUMENT.read_text()))
