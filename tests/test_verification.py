"""What the three commands go by: what a digest rests on, what is tried again,
and what is read from the prover's output."""

import contextlib
import os
import pathlib
import shutil
import subprocess
import sys
import types

TOP = pathlib.Path(__file__).resolve().parent.parent
sys.path.insert(0, str(TOP / "verification"))

import crates  # noqa: E402
import kit  # noqa: E402
import proofs  # noqa: E402
import quick  # noqa: E402
from digests import Digests  # noqa: E402
from locks import Edits, Proved, Record, Refusal, digests_of  # noqa: E402
from proofs import by_seconds  # noqa: E402
from source import function_of, functions_in, uncommented  # noqa: E402
from test import drawn  # noqa: E402
from tree import copied, proved_crates  # noqa: E402
from waiting import PATIENCE  # noqa: E402

BODY = """\
//! A crate.
#![tactic(auto)]

ghost use Rattle.LOWER.specs.Words.{word, least};
use LOWER::Part;

impl Low for Part {
    /// One more.
    #[inline]
    fn more(&self, x: u8) -> u8
        requires { x < word }
    {
        less(x) + 1
    }
}

pub(crate) fn less(x: u8) -> u8
    ensures { result < least }
{
    x - 1
}

pub struct Part(u8);

pub trait Low {
    fn more(&self, x: u8) -> u8
        ensures { result < 9 };
}
"""
WORDS = (
    "use Rattle.LOWER.specs.Rest.{rest}\n\n-- a word\nabbrev pub word : Of most\n\nabbrev pub most : It\n"
    "most = rest\n\nabbrev pub least : It\nleast = 1\n\nabbrev pub other : It\n"
)
REST = "abbrev pub rest : It\nrest = 9\n"
FILES = {"src/lib.rt": BODY, "specs/Words.antt": WORDS, "specs/Rest.antt": REST, "proofs/more/Answers.antt": "proof\n"}
LOWER = {"low": "byteorder", "middle": "low", "high": "middle"}
EDITS = {
    "must-fail/first.edit": "file: src/lib.rt\nold:         less(x) + 1\nnew:         less(x) + 2\n",
    "must-fail/second.edit": "file: src/lib.rt\nold:     x - 1\nnew:     x\n",
}
OF = {name: [f"{name}/first", f"{name}/second"] for name in LOWER}


def tree(folder):
    """A checkout of three crates, each of which names the one below it, and each with two edits."""
    top = folder / "tree"
    for name, lower in LOWER.items():
        for path, text in {**FILES, **EDITS}.items():
            file = top / "crates" / name / path
            file.parent.mkdir(parents=True, exist_ok=True)
            file.write_text(text.replace("LOWER", lower))
    (top / "crates.txt").write_text("# The crates: three.\nlow: byteorder\nmiddle: low\nhigh: middle\n")
    (top / "HANDLES").write_text("Handles allowed: none.\n")
    return top


def edits_of(top, name):
    return sorted((top / "crates" / name / "must-fail").glob("*.edit"))


def digests(top, logic="logic"):
    made = Digests(top, logic)
    return {f"{name}/{it.stem}": made.edit(name, it) for name in LOWER for it in edits_of(top, name)}


def changes(top, path, old, new, logic="logic"):
    """The edits whose digest another text of a file changes."""
    before, file = digests(top), top / "crates" / path
    text = file.read_text()
    assert old in text, (path, old)
    file.write_text(text.replace(old, new, 1))
    now = digests(top, logic)
    file.write_text(text)
    return sorted(it for it in {*before, *now} if before.get(it) != now.get(it))


def test_a_digest_rests_on_the_function_and_on_what_that_names(snapd, _):
    top, first = tree(snapd.folder), ["middle/first"]
    for path, old, new, wanted in (
        ("src/lib.rt", "less(x) + 1", "1 + less(x)", first),
        # (the one above has a method of that name)
        ("src/lib.rt", "x < word", "x < 8", ["high/first", *first]),
        ("src/lib.rt", "    x - 1", "    x.sub(1)", ["middle/second"]),
        ("src/lib.rt", "result < least", "result < 2", OF["middle"]),
        ("src/lib.rt", "result < 9", "result < 8", ["high/first", *first]),
        ("src/lib.rt", "struct Part(u8)", "struct Part(u16)", ["high/first", *first]),
        ("src/lib.rt", "pub struct Part", "#[derive(Debug)]\npub struct Part", []),
        ("src/lib.rt", "/// One more.", "// More.", []),
        ("proofs/more/Answers.antt", "proof", "another", []),
        ("specs/Words.antt", "Of most", "Of it", ["high/first"]),
        ("specs/Words.antt", "most = rest", "most = 8", ["high/first"]),
        ("specs/Words.antt", "least = 1", "least = 2", OF["high"]),
        ("specs/Words.antt", "other : It", "other : That", []),
        ("specs/Words.antt", "-- a word", "-- some word", []),
        ("must-fail/first.edit", "+ 2", "+ 3", first),
    ):
        assert changes(top, f"middle/{path}", old, new) == wanted, (path, old, changes(top, f"middle/{path}", old, new))
    assert changes(top, "low/specs/Rest.antt", "rest = 9", "rest = 8") == ["high/first"]
    every = sorted(it for found in OF.values() for it in found)
    assert changes(top, "low/src/lib.rt", "A crate", "The crate", logic="another") == every
    assert changes(top, "middle/src/lib.rt", "//! A crate.", "//!         less(x) + 1") == first
    # (one edit of one function has one digest, wherever it lies: the second ones of two crates are the same)
    assert len(set(digests(top).values())) == 5
    assert changes(top, "middle/src/lib.rt", "        less(x) + 1", "\n            less(x) + 1") == []


def test_a_digest_follows_what_is_handed_on_and_names_of_variants(snapd, _):
    top = tree(snapd.folder)
    high, middle = (top / "crates" / it / "specs" / "Words.antt" for it in ("high", "middle"))
    (top / "crates" / "low" / "specs" / "Kept.antt").write_text("abbrev pub kept : It\nkept = 1\n")
    middle.write_text("pub use Rattle.low.specs.Kept\n\n" + middle.read_text())
    body = BODY.replace("LOWER", "high").replace("x < word", "x < kept").replace("{word, least}", "{kept}")
    body = body.replace("Rattle.high.specs.Words", "Rattle.middle.specs.Kept")
    (top / "crates" / "high" / "src" / "lib.rt").write_text(body)
    assert changes(top, "low/specs/Kept.antt", "kept = 1", "kept = 2") == ["high/first"]
    (top / "crates" / "low" / "src" / "kind.rt").write_text("pub enum Kind {\n    One,\n    Two(u8),\n}\n")
    high.write_text("use Rattle.low.specs.declared.kind.Kind.TheVariants as kind\n\nabbrev pub word : kind.Two\n")
    (top / "crates" / "high" / "src" / "lib.rt").write_text(BODY.replace("LOWER", "high"))
    assert changes(top, "low/src/kind.rt", "Two(u8)", "Two(u16)") == ["high/first"]


def test_an_edit_is_placed_in_its_function(snapd, _):
    folder = tree(snapd.folder) / "crates" / "low"
    assert [(it.name, it.first, it.last) for it in functions_in(BODY)] == [
        ("more", 8, 14), ("less", 17, 21), ("more", 26, 26),
    ]
    first, second = (function_of(folder, it) for it in sorted((folder / "must-fail").iterdir()))
    assert first[1].startswith("impl Low for Part {") and "less(x) + 1" in first[1] and "x - 1" not in first[1]
    assert second[0] == "src/lib.rt" and second[1].startswith("\npub(crate) fn less")
    both = folder / "must-fail" / "both.edit"
    both.write_text("".join(EDITS.values()))
    assert function_of(folder, both)[1].count("fn ") == 3


def test_the_lock_has_what_was_refused_as_it_stands_and_nothing_else(snapd, _):
    top = tree(snapd.folder)
    made, names = Digests(top, "logic"), [(it, path) for it in LOWER for path in edits_of(top, it)]
    edits = Edits(
        {it: made.edit(*it) for it in names},
        {"gone/away.edit": Refusal("0", "old"), "low/first.edit": Refusal("0", "old")},
    )
    assert edits.known() == [] and edits.missing() == names
    said = (
        "rt: must-fail low/first.edit: refused, as it must be: text\n"
        "rt: must-fail low/second.edit: NOT REFUSED: the crate is still proved\n"
    )
    said += (
        "rt: must-fail middle/first.edit: refused, as it must be (only because a proof file names what the edit took "
        "away)\nrt: must-fail high/first.edit: refused, as it must be (only by a limit of the prover)\n"
    )
    refused, failed, failures = edits.take([*names[:3], *names[4:]], said.split("\n"))
    assert (refused, failed) == (2, 3) and [it.split(":")[0] for it in failures] == [
        "edit low/second.edit", "edit middle/first.edit", "edit high/second.edit",
    ]
    assert "NOT TRIED" in failures[2]
    edits.write(top)
    again = Edits(edits.digests, Edits.read(top))
    assert [Edits.name(it) for it in again.known()] == ["low/first.edit", "high/first.edit"]
    assert (
        set(Edits.read(top)) == {"low/first.edit", "high/first.edit"}
        and Edits.read(top)["low/first.edit"].release == kit.release()
    )


def test_a_sample_is_new_with_each_seed_and_keeps_to_its_bounds(snapd, _):
    crates = {name: types.SimpleNamespace(uses=(lower,)) for name, lower in LOWER.items()}
    edits = [(name, f"{at}.edit") for name in LOWER for at in range(9)]
    seconds = {"low": 100, "middle": 100, "high": 100}
    draws = [drawn(LOWER, edits, crates, seconds, [], seed, (2, 5, 250)) for seed in range(40)]
    assert {name for names, _ in draws for name in names} == set(LOWER) and len({tuple(it) for _, it in draws}) > 30
    assert all(
        len(names) == 2 and len(chosen) == 5 and {it[0] for it in chosen} <= set(names) for names, chosen in draws
    )
    # A crate that wasn't measured isn't taken to cost nothing.
    assert all(
        len(drawn(LOWER, edits, crates, {**seconds, "low": 0}, list(LOWER), seed, (3, 5, 150))[0]) < 3
        for seed in range(20)
    )
    # Where nothing below is at hand, a high one would cost all three.
    draws = [drawn(LOWER, edits, crates, seconds, list(LOWER), seed, (3, 99, 250)) for seed in range(40)]
    assert {tuple(sorted(names)) for names, _ in draws} == {("low", "middle")}, draws


def test_a_record_has_a_crate_as_long_as_nothing_under_its_proof_changes(snapd, _):
    top = tree(snapd.folder)
    (top / "crates.txt").write_text((top / "crates.txt").read_text() + "tests_low: low\ntry_low: low\n")
    for name, text in (("tests_low", "#[test]\nfn it() {}\n"), ("try_low", "fn main() {}\n")):
        (top / "crates" / name / "src").mkdir(parents=True)
        (top / "crates" / name / "src" / "lib.rt").write_text(text)
    assert proved_crates(top) == list(LOWER)
    made = Record(digests_of(top, "logic"), {})
    assert made.told() == "proofs.lock: 0 of 3 crates were proved as they are here; not low, middle, high"
    made.take({"low": 7, "middle": 5, "high": 3}, "2026-11-28")
    made.write(top)
    assert Record(made.digests, Record.read(top)) == made and made.missing() == []
    assert made.told() == f"proofs.lock: 3 of 3 crates were proved as they are here, by {kit.release()}, 2026-11-28"
    for path, old, new, wanted in (
        ("crates/middle/src/lib.rt", "A crate", "The crate", []),
        ("crates/middle/src/lib.rt", "    x - 1", "    x - 2", ["middle", "high"]),
        ("crates/low/proofs/more/Answers.antt", "proof", "other", list(LOWER)),
        ("crates/high/specs/Words.antt", "a word", "words", []),
        ("crates/high/specs/Words.antt", "most = rest", "most = 8", ["high"]),
        ("crates.txt", "middle: low", "middle: low bytes", ["middle", "high"]),
        ("HANDLES", "none", "Wait", list(LOWER)),
        ("crates/low/must-fail/first.edit", "2", "3", []),
    ):
        text = (top / path).read_text()
        (top / path).write_text(text.replace(old, new))
        assert Record(digests_of(top, "logic"), made.lines).missing() == wanted, path
        (top / path).write_text(text)
    assert Record(digests_of(top, "another"), made.lines).missing() == list(LOWER)
    # Crates that were proved before keep their day and time, and those that no longer exist are dropped.
    again = Record({**made.digests, "high": "new"}, {**made.lines, "gone": Proved("0", "old", "day", 1)})
    again.take({"high": 4}, "2026-12-01")
    assert [(it.day, it.seconds) for it in again.lines.values()] == [
        ("2026-11-28", 7), ("2026-11-28", 5), ("2026-12-01", 4),
    ]
    assert again.told().endswith("2026-11-28 to 2026-12-01")


def test_one_line_says_how_much_is_on_record(snapd, _):
    record = Record({"low": "0", "high": "1"}, {"low": Proved("0", "kit-1", "2026-12-01", 5)})
    assert record.told() == "proofs.lock: 1 of 2 crates were proved as they are here, by kit-1, 2026-12-01; not high"


def test_the_readme_says_what_is_on_record(snapd, _):
    assert f"`{Record.of(TOP).told()}`" in (TOP / "README.md").read_text().split("\n")


def test_a_proof_reads_all_but_the_lines_that_are_comments(snapd, _):
    kept = """\
let a = "first
// no comment: it is within a text"; let c = '"';
let r = r#"a "quoted"
// one"#; let l: &'static str = "it \\
// goes on"; // beside code a comment stays
"""
    assert uncommented("//! A head.\n" + kept + "    /// Said.\n    // More.\n", ".rt") == kept
    kept = 'it = codes "\\n-- no comment" -- beside a definition\n'
    assert uncommented("-- Said.\n" + kept + "  -- More.\n", ".antt") == kept


def test_a_copy_has_what_the_prover_reads_and_the_edits_that_are_tried(snapd, _):
    top = tree(snapd.folder)
    (top / "crates" / "low" / "out").mkdir()
    edit = next(it for it in edits_of(top, "low"))
    for edits in ([], [("low", edit)]):
        with copied(top, ["low"], edits) as copy:
            found = sorted(str(it.relative_to(copy)) for it in copy.rglob("*") if it.is_file())
            own = [*FILES, *(f"must-fail/{path.name}" for _, path in edits)]
            assert found == sorted(["HANDLES", "crates.txt", *(f"crates/low/{it}" for it in own)])
            assert (copy / "crates.txt").read_text() == "low: byteorder\n"
        assert not copy.exists()


def test_a_prover_that_fails_is_never_taken_for_one_that_passed(snapd, _):
    low, middle = "[1 of 3] low was kept, about 2 min left", "[2 of 3] middle proved in 12 s, about 1 min left"
    high, lacking = "[3 of 3] high proved in 3 s", "[3 of 3] high NOT PROVED in 3 s"

    def came(lines, status, log=("rt: more",)):
        return proofs.judged(LOWER, [*filter(None, map(proofs.TOLD.match, lines))], status, [*log])

    assert came([low, middle, high], 0) == (3, 0, [])
    log = ["rt: high: note", "rt: high NOT PROVED", "rt: FAILED: high", "rt: must-fail high/first: NOT PROVED"]
    passed, failed, said = came([low, middle, lacking], 1, log)
    assert (passed, failed, said[:-1]) == (2, 1, log[1:3]) and said[-1].startswith("the whole log: ")
    for lines, status, wanted in (
        ([low, middle, high], 1, (3, 1)), ([low, middle, high], -9, (3, 1)), ([], 0, (0, 3)),
        ([low, middle], 0, (2, 1)), ([low, middle, lacking], 0, (2, 1)), (["Traceback"], 1, (0, 3)),
    ):
        passed, failed, said = came(lines, status)
        assert (passed, failed) == wanted and said, (lines, status)


def test_a_run_that_ends_at_once_is_not_told_by_an_earlier_one(snapd, _):
    log, own = snapd.folder / "out" / "proofs.log", proofs.LOG
    log.parent.mkdir()
    log.write_text("rt: must-fail snap_history/takes_each_update.edit: refused, as it must be: text\n")
    edits = Edits.of(TOP)
    chosen = [it for it in edits.digests if Edits.name(it) == "snap_history/takes_each_update.edit"]
    edits.write = lambda top: None
    proofs.LOG, ran = log, proofs.ran
    proofs.ran = lambda words, each, **how: (1, ["a traceback"])
    try:
        with contextlib.redirect_stdout(None):
            seconds, (proved, tried) = proofs.prove([], edits, chosen)
    finally:
        proofs.LOG, proofs.ran = own, ran
    assert seconds == {} and proved[:2] == (0, 1) and tried[:2] == (0, 1), (proved, tried)


def test_a_proof_is_kept_as_long_as_all_that_it_read_is_the_same(snapd, _):
    top = tree(snapd.folder)
    os.environ["XDG_CACHE_HOME"] = str(snapd.folder)

    def built(name):
        return top / "crates" / name / "out" / "rlib" / f"{name}.rlib"

    rt = proofs.opened()
    crates = rt.rtlib.crates_below(str(top))
    kept = rt.Kept(crates)
    for it in crates:
        built(it.name).mkdir(parents=True)
        (built(it.name) / "format").write_text(it.name)
        kept.is_built(it)
        if it.name != "high":
            kept.keep(it, False, kept.key(it))
    assert proofs.lacking(top) == ["high"] and (built("high") / "format").exists()
    for path, lost in (
        ("crates/middle/src/lib.rt", ["middle", "high"]), ("crates/middle/specs/Words.antt", ["middle", "high"]),
        ("crates/low/src/lib.rt", list(LOWER)), ("HANDLES", list(LOWER)), ("crates.txt", ["middle", "high"]),
    ):
        file = top / path
        text = file.read_text()
        file.write_text(text.replace("middle: low", "middle: low bytes") if path == "crates.txt" else text + " ")
        assert proofs.lacking(top) == lost, path
        file.write_text(text)
    source = top / "crates" / "middle" / "src" / "lib.rt"
    source.write_text("// A comment more.\n" + source.read_text())
    # What is laid is what was kept, with a stamp, and nothing is left of the others.
    (built("low") / "format").unlink()
    assert proofs.lacking(top, is_laid=True) == ["high"]
    assert (built("low") / "format").read_text() == "low" and not built("high").exists()
    assert [it.is_built() for it in rt.rtlib.crates_below(str(top))] == [True, True, False]
    for it in (snapd.folder / "snapd-proofs").glob("proof-low-*/0"):
        it.write_text("another")
    assert proofs.lacking(top, is_laid=True) == list(LOWER)


def test_nobody_else_can_write_to_the_archive(snapd, _):
    kept = snapd.folder / "snapd-proofs"
    kept.mkdir(mode=0o770)
    os.environ["XDG_CACHE_HOME"] = str(snapd.folder)
    assert proofs.opened().Kept([]).at == str(kept) and kept.stat().st_mode & 0o777 == 0o700


def test_the_longest_chain_goes_by_what_was_measured(snapd, _):
    call, below = lambda given, jobs: jobs, [("low", "proof")]  # noqa: E731
    tasks = {("low", "proof"): ([], 100, 2, call), ("new", "proof"): (below, 100, 2, call)}
    edits = {("low", "seed"): ([], 0, 2, call), ("new", "edits", 0): (below, 100, 2, call)}
    found = by_seconds({**tasks, **edits}, {"low": 70, "new": 0}, 4)
    # Nobody uses `new`: its proof gets all processors, however few are idle as it begins.
    *rest, proof = found.pop(("new", "proof"))
    assert (*rest, proof({}, 1)) == (below, 60, 1, 4)
    rest = {("low", "seed"): ([], 0, 1, call), ("new", "edits", 0): (below, 0, 2, call)}
    assert found == {("low", "proof"): ([], 70, 1, call), **rest}


def test_tests_that_end_without_a_count_have_failed(snapd, _):
    assert crates.judged("low", 0, "test it ... ok\ntest result: ok. 2 passed; 0 failed; 0 ignored\n") == (2, [])
    said = "test it ... FAILED\ntest result: FAILED. 1 passed; 1 failed; 0 ignored"
    assert crates.judged("low", 1, said) == (1, ["low: test it ... FAILED"])
    for status, said in ((0, "test it ... ok"), (-11, ""), (1, "test result: ok. 2 passed; 0 failed; 0 ignored")):
        assert crates.judged("low", status, said)[1], (status, said)


def test_a_built_program_gets_a_line_on_its_build(snapd, _):
    room, program = quick.UNSTAMPED.ljust(quick.ROOM), snapd.folder / "program"
    assert (TOP / "crates" / "snap_args" / "src" / "grammar.rt").read_bytes().count(room) == 1
    program.write_bytes(b"code" + room + b"code")
    quick.stamp(program, "not proved")
    data = program.read_bytes()
    assert (
        len(data) == quick.ROOM + 8 and data[:4] == data[-4:] == b"code" and data[4:].startswith(b"not proved; ")
    ), data
    for text in (b"no room", room + room):
        program.write_bytes(text)
        with contextlib.suppress(AssertionError):
            quick.stamp(program, "proved")
        assert program.read_bytes() == text


def test_what_is_missing_is_told_in_one_line(snapd, _):
    tools = snapd.folder / "tools"
    tools.mkdir()
    for it in ("sh", "make", "python3", "gcc"):
        found = subprocess.run(["which", it], capture_output=True, text=True).stdout.strip()
        os.symlink("/bin/sh" if it == "sh" else found, tools / it)
    for command, gone, said in (
        ("demo", "rt", "Rattle kit"), ("test", "rt", "Rattle kit"), ("prove", "gcc", "apt-get install gcc"),
        ("demo", "python3", "Python"),
    ):
        (tools / "rt").unlink(missing_ok=True)
        (tools / "rt").symlink_to(shutil.which("rt"))
        (tools / gone).rename(tools / "away") if gone != "rt" else (tools / "rt").unlink()
        ran = subprocess.run(
            [tools / "make", "-s", "-C", TOP, command], env={"PATH": str(tools)}, capture_output=True, text=True,
            timeout=PATIENCE,
        )
        first = ran.stderr.split("\n")[0]
        assert (
            ran.returncode
            and first.startswith(f"make: {gone} is missing: install")
            and said in first
            and "Traceback" not in ran.stderr
        ), ran
        (tools / "away").rename(tools / gone) if gone != "rt" else None


def test_a_kit_that_lacks_a_part_is_told_apart(snapd, _):
    run = subprocess.run(
        [sys.executable, "-c", "import kit; kit.PARTS.append('no.such'); kit.load()"], cwd=TOP / "verification",
        capture_output=True, text=True, timeout=PATIENCE,
    )
    assert run.returncode == 1 and "lacks what -c goes by: " in run.stderr and "Traceback" not in run.stderr, run


def test_a_crate_that_is_not_there_is_told_by_its_name(snapd, _):
    for program in ("quick", "test"):
        run = subprocess.run(
            [sys.executable, TOP / "verification" / f"{program}.py", "nowhere"], capture_output=True, text=True,
            timeout=PATIENCE,
        )
        assert (run.returncode, run.stdout, run.stderr) == (1, "", "crates.txt has no nowhere\n"), (program, run)


def test_the_seconds_of_a_proof_are_those_of_its_functions(snapd, _):
    left = pathlib.Path(snapd.folder) / "out" / "incremental"
    words = [sys.executable, TOP / "bench" / "proof_seconds.py", snapd.folder]
    run = subprocess.run(words, capture_output=True, text=True, timeout=PATIENCE)
    assert run.returncode == 1 and run.stderr.startswith(f"{left} has nothing"), run
    left.mkdir(parents=True)
    ends = {"first": 0, "a-proofs.desk.ask.Lts": 2, "a-proofs.desk.ask.Proof.decls": 5, "a-specs.Words": 6}
    for name, at in ends.items():
        (left / f"{name}.oantt").touch()
        os.utime(left / f"{name}.oantt", (at, at))
    run = subprocess.run(words, capture_output=True, text=True, timeout=PATIENCE)
    assert run.stdout == "6 s in all\n   5.0 desk.ask (Proof 3.0, Lts 2.0)\n   1.0 all else (files 1.0)\n", run


def test_the_seconds_of_a_goal_end_where_the_next_begins(snapd, _):
    left = pathlib.Path(snapd.folder) / "out" / "incremental" / "x-proofs.desk.ask.Proof.oantt"
    left.parent.mkdir(parents=True)
    left.touch()
    at = "antt: cache: Rattle-x-proofs.desk"
    lines = [f"{at}.ask.Proof: quick: reused", f"{at}.ask.Answers: long: not reused", f"{at}.tell.Proof: long: reused"]
    kit = pathlib.Path(snapd.folder) / "rt"
    one, two, three = (f"echo {it!r}" for it in lines)
    kit.write_text(f"#!/bin/sh\n{one}; sleep 0.1; {two}; sleep 0.6; {three}; sleep 1\n")
    kit.chmod(0o755)
    words = [sys.executable, TOP / "bench" / "proof_seconds.py", snapd.folder, "--goals", "desk::ask"]
    env = {**os.environ, "PATH": f"{snapd.folder}:{os.environ['PATH']}"}
    run = subprocess.run(words, capture_output=True, text=True, timeout=PATIENCE, env=env)
    assert [it.split(maxsplit=1)[1] for it in run.stdout.splitlines()] == ["long (Answers)", "quick (Proof)"], run
    assert not left.exists(), "the proof that was there is not made anew"
