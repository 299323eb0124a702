"""Names with control characters, in what is said of files, folders and addresses: they are escaped, so that no name
makes a line of its own or acts on a terminal, and nothing else of a name is changed."""

import remedies
import segment_file as layout
from serving import LOOPBACK

# Names, and how they are shown.
NAMES = [
    ("a\nsnapd: b", "a\\nsnapd: b"),
    ("a\r\tb", "a\\r\\tb"),
    ("\x1b[31m\x01\x7f\x85", "\\u{1b}[31m\\u{1}\\u{7f}\\u{85}"),
    ("a\u2028b\u2029", "a\\u{2028}b\\u{2029}"),
]
# Shown as they are: in other letters, with blanks, quotes and backslashes.
PLAIN = ["äß 漢🙂", "a'b\"c", "a\\n\\u{1b}", "a%s{}$b"]
ALL = [*NAMES, *((it, it) for it in PLAIN)]
WHOLE = layout.holding((0, b""))


def test_names_of_files_that_are_refused(snapd, _):
    """In the system's reason and in the line after a refusal, with what to do."""
    for name, shown in ALL:
        for words, place in (("put", "0 --count 1"), ("get", "0 --count 1"), ("check", "I --count N")):
            missing = remedies.no_file(shown, f"--index {place}")
            snapd(words, name).gave(1, errors=remedies.failed(shown, remedies.MISSING, missing))
        snapd.file(name).write_bytes(b"x")
        why = f"{shown}: it has 1 bytes, and a segment file has {layout.LENGTH}"
        snapd("get", name).refused(14, "WrongFile", why)
        snapd.file(name).write_bytes(b"")
        snapd("check", name).refused(
            14, "WrongFile", f"{shown}: it has no byte: a format that was cut off: go on with "
            f"snapd format {shown} --index I --count N"
        )
        snapd.file(name).write_bytes(WHOLE)
        snapd("check", name, "--slot", 1, "--value").gave(
            3, errors=f"snapd: {shown}: slot 1 holds no value, bad number: try another slot\n"
        )
        snapd("migrate", name, "new").refused(
            14, "WrongFile", f"{shown}: refused as the old file: it isn't the file of segment 0 of 1 with the "
            f"{layout.OLD.length} bytes of the old format"
        )


def test_names_in_a_folder(snapd, _):
    """A folder's name and a file's there, as they are reported, refused and loaded."""
    for number, (name, shown) in enumerate(ALL):
        place = snapd.file(name)
        snapd("init", name).gave(0, "formatted 0 of 1\n")
        (place / "segment-00.seg").rename(place / f"{name}.seg")
        report = snapd("doctor", name).output.decode().split("\n")
        assert report[0] == f"{shown}/{shown}.seg: segment 0 of 1 number 0", report
        assert report[1] == f"{shown}: no segment is missing: serve it with snapd serve ADDR --dir {shown}", report
        assert len(report) == 4 and report[2].startswith(f"{shown}: its file system is ") and not report[3], report
        dump = snapd("dump", name).output
        snapd("load", f"{name}{number}", "-", stdin=dump).gave(
            0, f"loaded 0 of 1 number 0\nready {shown}{number}\n"
        )
        (place / f"{name}.seg").write_bytes(b"x")
        line = (
            f"{shown}/{shown}.seg: it is no segment file: bring a copy back if it was one, "
            f"else move it out of {shown}, or give it a name that doesn't end in .seg"
        )
        for words in (("serve", LOOPBACK, "--dir", name), ("dump", name)):
            snapd(*words).gave(3, errors=f"snapd: {line}\n")
        assert snapd("doctor", name).output.decode().startswith(f"{line}\n{shown}: its file system is ")


def test_names_of_sockets(snapd, _):
    snapd.formatted()
    for name, shown in ALL:
        for words in (("call", f"unix:{name}", "scan"), ("watch", f"unix:{name}")):
            run = snapd(*words)
            assert run.status == 1 and f"snapd: unix:{shown}: {remedies.MISSING}: " in run.errors, run
            lines = run.errors.removesuffix("\n").split("\n")
            assert all(it.startswith(f"snapd: unix:{shown}: ") for it in lines), run
        snapd.file(name).write_bytes(b"")
        run = snapd("serve", f"unix:{name}", "F")
        why = "it is there, and no socket: move it away, or give another path"
        assert (run.status, run.errors) == (1, f"snapd: unix:{shown}: can't listen there: {why}\n"), run


def test_wrong_words_have_lines_of_their_own(snapd, _):
    """They are said as they are."""
    run = snapd("get", "F", "--index", 1)
    assert run.status == 2 and run.errors.startswith("snapd: error: the index 1 is not below the count 1\n"), run
    assert run.errors.endswith("try '--help'.\n") and run.errors.count("snapd: ") == 1, run
