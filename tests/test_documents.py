"""The documents point at what is there: files, headings, functions with the clauses that are named, and definitions."""

import pathlib
import re
import subprocess
import sys

TOP = pathlib.Path(__file__).resolve().parent.parent
sys.path.insert(0, str(TOP / "docs"))

import tables  # noqa: E402

DOCUMENTS = [
    *(TOP / it for it in ("README.md", "CHANGELOG.md", "CONTRIBUTING.md", "SECURITY.md")),
    *sorted((TOP / "docs").glob("*.md")),
]
LINK = re.compile(r"\[([^\]]*)\]\(([^)\s]+)\)")
# [`store`](../crates/snap_segment/src/segment.rt): `any_moment`, `last`
CITED = re.compile(r"\[`([\w:]+)`\]\(([^)\s]+\.rt)\)((?::|,|, and| and)(?: `[a-z_]+`(?:,| and)?)+)?")
DEFINED = re.compile(r"\[`([\w-]+)`\]\(([^)\s]+\.antt)\)")


def anchors(text):
    """The anchors of a document's headings."""
    for heading in re.findall(r"^#+ (.*)$", text, re.M):
        yield re.sub(r"[^\w\- ]", "", heading.lower()).replace(" ", "-")


def test_links_point_at_what_is_there(snapd, random):
    for document in DOCUMENTS:
        for _, target in LINK.findall(document.read_text()):
            path, _, anchor = target.partition("#")
            file = document.parent / path if path else document
            assert file.exists(), f"{document.name}: {target}"
            assert not anchor or anchor in anchors(file.read_text()), f"{document.name}: {target}"


def facts_of(head, crate):
    """The names of a function's clauses, and of the facts of the records that these name."""
    records = re.findall(
        r"^pub record (\w+)(.*?)(?=^\S|\Z)", "".join(it.read_text() for it in crate.glob("specs/**/*.antt")),
        re.S | re.M,
    )
    facts = [
        fact
        for name, body in records
        if re.search(rf"\b{name}\b", head)
        for fact in re.findall(r"^ +pub (\w+) :", body, re.M)
    ]
    return {*re.findall(r"\bensures (\w+) ", head), *facts}


def test_clauses_stand_at_the_functions_that_are_named(snapd, random):
    cited = 0
    for document in DOCUMENTS:
        # A list of clauses may go on in the next line.
        for name, target, clauses in CITED.findall(" ".join(document.read_text().split())):
            source = (document.parent / target).read_text()
            name = name.rpartition("::")[2]
            if name[0].isupper():
                assert re.search(rf"\b(trait|struct|enum|const) {name}\b", source), (
                    f"{document.name}: {target} has no {name}"
                )
                continue
            at = re.search(rf"\bfn {name}\b.*?(?=^\s*(?:pub(?:\([a-z]+\))? )?(?:const )?fn |\Z)", source, re.S | re.M)
            assert at, f"{document.name}: there is no function {name} in {target}"
            for clause in re.findall(r"`([a-z_]+)`", clauses):
                cited += 1
                crate = document.parent / target.partition("/src/")[0]
                assert clause in facts_of(at[0], crate), f"{document.name}: {name} has no clause {clause}"
    assert cited, "no clause is named"


def test_definitions_stand_where_they_are_named(snapd, random):
    for document in DOCUMENTS:
        for name, target in DEFINED.findall(document.read_text()):
            source = (document.parent / target).read_text()
            word = re.escape(name)
            assert re.search(
                rf"^ *(?:pub )?(?:abbrev |unfoldable )?(?:pub )?(?:record |data )?{word}(?= |$)", source, re.M
            ), f"{document.name}: {target} has no {name}"


def test_what_is_promised_is_in_the_printed_table_of_contracts(snapd, random):
    """The script that PROMISES.md names prints each public function that it links, with its clauses."""
    script = TOP / "docs" / "tables.py"
    printed = subprocess.run([sys.executable, script, "contracts"], capture_output=True, text=True, check=True).stdout
    rows = {}
    for name, file, clauses in re.findall(r"^\| \[`([\w:]+)`\]\((\S+)\) \| `(.*)` \|$", printed, re.M):
        rows.setdefault((file, name.rpartition("::")[2]), set()).update(clauses.split("`, `"))
    assert len(rows) > 300
    promised, text = set(), " ".join((TOP / "docs" / "PROMISES.md").read_text().split())
    assert f"`python3 {script.relative_to(TOP)} contracts`" in text
    for name, target, clauses in CITED.findall(text):
        file, name = target.removeprefix("../"), name.rpartition("::")[2]
        source = (TOP / file).read_text()
        head = rf"^ *pub (?:const )?fn {name}\b.*?(?=^ *(?:pub(?:\([a-z]+\))? )?(?:const )?fn |\Z)"
        if at := re.search(head, source, re.S | re.M):
            promised.add((file, name))
            # Some clauses are facts of a record that one of the head's names.
            named = set(re.findall(r"`([a-z_]+)`", clauses)) & set(re.findall(r"\bensures (\w+) ", at[0]))
            assert named <= rows.get((file, name), set()), (file, name, named)
    assert promised <= rows.keys() and len(promised) > 40, sorted(promised - rows.keys())


def test_files_that_a_step_names_are_there(snapd, random):
    named = re.findall(r"`(\w+/(?:src|specs|proofs)/[\w/]+\.\w+)`", (TOP / "CONTRIBUTING.md").read_text())
    assert len(named) > 50
    assert not [it for it in named if not (TOP / "crates" / it).exists()]


def test_what_is_quoted_is_in_the_source(snapd, random):
    document = TOP / "docs" / "READING.md"
    text, quoted = document.read_text(), []
    for block in re.finditer(r"^```(\w*)\n(.*?)^```$", text, re.S | re.M):
        # It is of the file that was linked last before it.
        target = LINK.findall(text[: block.start()])[-1][1]
        assert block[2] in (document.parent / target).read_text(), f"{target} has no such lines:\n{block[2]}"
        quoted.append(block[1])
    assert quoted.count("rust") >= 3 and quoted.count("antt") >= 2, quoted


# ---- what no clause says ----

def unsaid():
    """The rows of the table in docs/UNPROVED.md: what, where, what would pass, and the tests."""
    chapter = (TOP / "docs" / "UNPROVED.md").read_text().split("\n## What no clause says\n")[1].split("\n## ")[0]
    rows = [line.strip("| ").split(" | ") for line in chapter.splitlines() if line.startswith("| ")]
    assert rows[0][0] == "What" and len(rows) > 50, rows[0]
    return rows[1:]


def named_in(cell):
    """Each name that a cell links, without its marks, and the text of its file."""
    return [(name.strip("`"), target, (TOP / "docs" / target).read_text()) for name, target in LINK.findall(cell)]


def test_what_no_clause_says_is_in_the_code(snapd, random):
    for row in unsaid():
        assert len(row) == 4 and all(row), row
        assert named_in(row[1]), f"no code is named: {row[0]}"
        for name, target, source in named_in(row[1]):
            assert re.search(rf"\bfn {name}\b", source), f"{target} has no function {name}"


def test_what_no_clause_says_has_a_test_or_says_that_it_has_none(snapd, random):
    shown = set()
    for row in unsaid():
        assert named_in(row[3]) or row[3].startswith("none"), f"no test is named: {row[0]}"
        for name, target, source in named_in(row[3]):
            shown.add((target, name))
            test = rf"^def {name}\(" if target.endswith(".py") else rf"#\[test\]\s+fn {name}\b"
            assert re.search(test, source, re.M), f"{target} has no test {name}"
    # The tests that were written for such rows are named in them.
    for name in re.findall(r"^def (test_\w+)", (TOP / "tests" / "test_unsaid.py").read_text(), re.M):
        assert ("../tests/test_unsaid.py", name) in shown, f"{name} is in no row"


# In these every function was checked for the table.
GONE_THROUGH = ("snap_server/src", "snap_serve/src", "snapd/src", "snap_file_commands/src/system",
    "snap_client_commands/src/system", "snap_devices/src/file.rt")
# Functions with no clause of their own that are in no row, by the reason.
IN_NO_ROW = {
    "its trait's clauses are its own": (
        ("snap_devices/src/file.rt", "failures len from"),
        ("snap_server/src/server.rt", "announce"),
        ("snap_server/src/unix.rt", "from"),
        ("snap_server/src/listen.rt", "fmt"), ("snap_server/src/listeners.rt", "endpoints"),
    ),
    "it puts its arguments together, or gives a part of what is there": (
        ("snap_serve/src/bind.rt", "new"), ("snap_server/src/acceptor.rt", "new"),
        ("snap_file_commands/src/system/files.rt", "new"),
    ),
    "it does nothing, or hands on": (
        ("snap_serve/src/observer.rt", "begun ended look stop"),
        ("snap_serve/src/counted.rt", "close"),
        ("snap_server/src/gate.rt", "enter leave"), ("snap_server/src/stream.rt", "flush"),
    ),
}


def heads(source):
    """Each function of a file by its name, with its head: all before its body, and its contract in that."""
    for start in re.finditer(r"^( *)(?:pub(?:\([a-z]+\))? )?fn (\w+)", source.split("#[cfg(test)]")[0], re.M):
        head = []
        for line in source[start.start() :].splitlines():
            head.append(line)
            is_signature = not re.match(r" *(requires|ensures)\b", line) and line.count("(") <= line.count(")")
            if line == start[1] + "{" or (is_signature and line.endswith(("{", "{}", ";"))):
                break
        yield start[2], "\n".join(head)


def test_each_function_without_a_clause_is_in_a_row(snapd, random):
    crates = TOP / "crates"
    files = [
        file
        for it in GONE_THROUGH
        for file in ([crates / it] if it.endswith(".rt") else sorted((crates / it).rglob("*.rt")))
    ]
    told = {(target.removeprefix("../crates/"), name) for row in unsaid() for name, target, _ in named_in(row[1])}
    excepted = {(file, name) for entries in IN_NO_ROW.values() for file, names in entries for name in names.split()}
    silent = {
        (str(file.relative_to(crates)), name)
        for file in files
        for name, head in heads(file.read_text())
        # What ends so is declared, in a trait.
        if "ensures" not in head and not head.endswith(";")
    }
    assert len(silent) > 80, len(silent)
    assert not silent - told - excepted, f"no clause says what they do, and no row: {sorted(silent - told - excepted)}"
    assert not excepted - silent | excepted & told, (
        f"they needn't be excepted: {sorted(excepted - silent | excepted & told)}"
    )


# ---- the tables of docs/ARCHITECTURE.md ----

ARCHITECTURE = TOP / "docs" / "ARCHITECTURE.md"


def table(heading, document=ARCHITECTURE):
    """The rows of the first table below this heading, without its head."""
    chapter = document.read_text().split(f"\n## {heading}\n")[1].split("\n## ")[0]
    rows = [
        [cell.strip() for cell in line.strip("|").split(" | ")] for line in chapter.splitlines() if line.startswith("|")
    ]
    assert len(rows) > 2 and all(len(row) == len(rows[0]) for row in rows[2:]), heading
    return rows[2:]


def test_each_crate_stands_in_one_room(snapd, random):
    assert ARCHITECTURE.read_text().startswith("# Architecture\n\n## Rooms\n\n| ")
    told = {room: re.findall(r"`(\w+)`", crates) for room, _, crates in table("Rooms")}
    listed = {}
    for line in (TOP / "crates.txt").read_text().splitlines():
        if heading := re.match(r"# (\w+): ", line):
            listed[heading[1]] = []
        elif crate := re.match(r"\w+", line):
            listed[list(listed)[-1]].append(crate[0])
    assert list(told.items()) == list(listed.items())
    crates = sum(listed.values(), [])
    assert sorted(crates) == sorted(it.parent.name for it in (TOP / "crates").glob("*/src")), (
        "a crate twice or in no room"
    )


def test_the_table_of_crates_is_as_its_script_writes_it(snapd, random):
    text = ARCHITECTURE.read_text()
    assert tables.written(text) == text, "run: python3 docs/tables.py"
    listed = re.findall(r"^\| \[(\w+)\]", tables.table(), re.M)
    assert sorted(listed) == sorted(it.parent.name for it in (TOP / "crates").glob("*/src"))


def constant(name, file):
    """The value of a constant of this file. A constant that it names is in the same crate."""
    stated = re.search(rf"\bconst {name}: \w+ = ([^;]+);", file.read_text())
    assert stated, f"{file} has no number {name}"

    def beside(word):
        return str(
            next(constant(word[0], it) for it in file.parent.glob("*.rt") if f"const {word[0]}: " in it.read_text())
        )

    return eval(re.sub(r"[A-Z][A-Z_]+", beside, stated[1]))


def test_limits_are_those_of_the_code(snapd, random):
    rows = table("Limits")
    for what, limit, where, _ in rows:
        number = re.match(r"[\d,]+( ?[\^*-] ?\d+)*", limit)[0].replace(",", "").replace("^", "**")
        [(name, target)] = LINK.findall(where)
        assert constant(name.strip("`"), TOP / "docs" / target) == eval(number), (what, limit)
    assert len({where for _, _, where, _ in rows}) == len(rows) > 40


def test_words_stand_for_what_is_there(snapd, random):
    rows = table("Words", TOP / "docs" / "TOUR.md")
    assert len(rows) <= 20, "a newcomer reads them all"
    assert [word for word, _, _ in rows] == sorted({word for word, _, _ in rows}), "a word twice, or not in order"
    for word, meaning, where in rows:
        assert named_in(where), f"{word} names no code"
        for name, target, source in named_in(where):
            defined = rf"(trait|struct|enum|const) {name}\b|^ *(pub )?(abbrev |record |data )(pub )?{name}(?= |$)"
            assert re.search(defined, source, re.M), f"{word}: {target} has no {name}"
        assert meaning.count("(1)") == where.count("(1)"), word


# Names that two crates promise: each of the two interfaces was asked for by these names.
TWICE = {"Reply": {"snap_frame", "snap_world"}, "Stopped": {"snap_restart", "snap_world"}}
TYPE = re.compile(r"^(?:pub(?:\(\w+\))? )?(?:struct|enum|trait|type|union) (\w+)", re.M)


def test_a_type_has_a_name_of_its_own(snapd, random):
    homes = {}
    for path in TOP.glob("crates/snap*/src/**/*.rt"):
        if "tests" not in path.with_suffix("").parts:
            for name in TYPE.findall(path.read_text()):
                homes.setdefault(name, []).append(path.relative_to(TOP / "crates").parts[0])
    assert len(homes) > 300, len(homes)
    assert {name: set(crates) for name, crates in homes.items() if len(crates) > 1} == TWICE


# Crates with laws, which are contracts of functions that do nothing: they name the crates
# that the laws are of.
OF_LAWS = {"snap_restart", "snap_laws"}
OF_CONTRACTS = re.compile(r"\buse Rattle\.(\w+)\.")


def test_a_contract_names_no_crate_that_the_code_beside_it_does_not_use(snapd, random):
    for crate in sorted(it for it in TOP.glob("crates/snap*") if it.name not in OF_LAWS):
        sources = "".join(it.read_text() for it in crate.glob("src/**/*.rt"))
        contracts = sources + "".join(it.read_text() for it in crate.glob("specs/**/*.antt"))
        code = re.sub(r"^ *(ghost use .*|//.*)$", "", sources, flags=re.M)
        used = set(re.findall(r"\b(\w+)::", code)) | set(re.findall(r"^ *(?:pub )?use (\w+);", code, re.M))
        known = used | OF_LAWS | {crate.name, "std"}
        strange = set(OF_CONTRACTS.findall(contracts)) - known
        assert not strange, (crate.name, strange)


def test_above_the_registers_nobody_names_their_table(snapd, random):
    above = [
        it for it in TOP.glob("crates/*/*/**/*") if it.suffix in (".rt", ".antt") and "snap_register" not in it.parts
    ]
    assert len(above) > 1000
    assert not [it for it in above if "out" not in it.parts and "atomic_table" in it.read_text()]


def test_files_are_called_by_nouns(snapd, random):
    """No file of code, definitions or lemmas has the name of an activity."""
    files = [
        it
        for part in ("src", "specs", "proofs")
        for it in TOP.glob(f"crates/*/{part}/**/*")
        if it.suffix in (".rt", ".antt")
    ]
    assert len(files) > 500
    assert {it.name for it in files if it.stem.lower().endswith("ing")} == set()


# ---- how long the lines and the documents are ----

# What `rt fmt` writes in one line, however long it is: by file, how such a line begins.
LONGER = {"crates/snap_persist/src/laws.rt": "#[tactic("}


def test_lines_have_120_columns_at_most(snapd, random):
    """Those of code, scripts and contracts. A must-fail edit has the lines of what it changes."""
    run = subprocess.run(["git", "ls-files"], cwd=TOP, capture_output=True, text=True, check=True)
    kinds = (".py", ".c", ".h", ".rt", ".antt", ".sh", "Makefile")
    files = [it for it in run.stdout.splitlines() if it.endswith(kinds) and (TOP / it).exists()]
    assert len(files) > 1000
    long = []
    for file in files:
        begins = LONGER.get(file)
        for at, line in enumerate((TOP / file).read_text().split("\n"), 1):
            if len(line) > 120 and not (begins and line.startswith(begins)):
                long.append(f"{file}:{at}")
    assert not long, long



def test_figures_of_readme_are_those_of_performance(snapd, random):
    """The registers' memory, by the formula of PERFORMANCE, and how long a proof of everything takes."""
    readme, performance = ((TOP / it).read_text() for it in ("README.md", "docs/PERFORMANCE.md"))
    assert "4,096 n(n + 1)(n + s + 2) bytes" in performance
    figures = re.findall(r"([\d.]+) MB for (\d+)(?: segments)? and (\d+)", readme)
    assert len(figures) == 2, figures
    for megabytes, n, s in figures:
        made = 4096 * int(n) * (int(n) + 1) * (int(n) + int(s) + 2) / 1e6
        assert abs(float(megabytes) / made - 1) < 0.03, (megabytes, made)
    [minutes] = re.findall(r"make prove .*: (some \d+ minutes)", readme)
    assert f"| `make prove`, from nothing | {minutes} |" in performance, minutes


# The most words that a document may have, or several together: what one reads in an evening.
# What is added to one is cut in it.
MOST_WORDS = {
    "README.md": 1_386, "SECURITY.md": 200, "docs/TOUR.md": 1_500, "docs/READING.md": 1_080, "docs/PROMISES.md": 3_960,
    "docs/UNPROVED.md": 3_715,
    "docs/FORMATS.md": 6_450, "docs/RECIPES.md docs/REPLICATION.md": 5_840,
    "docs/PERFORMANCE.md docs/COMPARISON.md": 2_475,
    "docs/DECISIONS.md": 2_680, "docs/ARCHITECTURE.md": 2_370, "CONTRIBUTING.md CHANGELOG.md": 2_055,
    "clients/c/README.md clients/python/README.md": 1_570,
}


def test_documents_stay_short(snapd, random):
    named = {TOP / file for files in MOST_WORDS for file in files.split()}
    assert set(DOCUMENTS) <= named, sorted(map(str, set(DOCUMENTS) - named))
    for files, most in MOST_WORDS.items():
        words = sum(len((TOP / file).read_text().split()) for file in files.split())
        print(f"{files}: {words} words of {most}")
        assert words <= most, f"{files}: {words} words, and {most} are the most"
