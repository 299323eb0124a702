"""What explains the program: its page of the manual, and what completes its words in a shell."""

import pathlib
import re
import shlex
import shutil
import subprocess
import sys

from program import Skipped
from waiting import PATIENCE

TOP = pathlib.Path(__file__).resolve().parent.parent
PACKAGING = TOP / "packaging"
PAGE = PACKAGING / "snapd.1"
COMPLETIONS = {
    it: PACKAGING / "completions" / name
    for it, name in (("bash", "snapd.bash"), ("zsh", "_snapd"), ("fish", "snapd.fish"))
}
# What `call` can be asked.
REQUESTS = "get health part put scan status update"
UNKNOWN = (
    "snapd: error: unrecognized subcommand '{}'\n\nUsage: snapd <COMMAND>\n\nFor more information, try '--help'.\n"
)
# Calls the completing function as bash does: the words, of which the last is the one to be completed.
TRY = """
. "$1"
shift
COMP_WORDS=("$@")
COMP_CWORD=$(($# - 1))
_snapd
printf '%s\\n' "${COMPREPLY[@]}"
"""


def wanted(program):
    """The path of a program that the test runs beside snapd."""
    path = shutil.which(program)
    if path is None:
        raise Skipped(f"{program} isn't installed")
    return path


def output(snapd, *words):
    """What these words print, where they end well."""
    run = snapd(*words)
    assert run.status == 0 and run.errors == "", run
    return run.output.decode()


def commands(snapd):
    """The commands as help lists them, with what each does."""
    listed = output(snapd, "help").split("\nCommands:\n")[1].split("\n\n")[0]
    return dict(line.split(maxsplit=1) for line in listed.splitlines())


def options(snapd, command):
    """The long options that the command's help lists."""
    return re.findall(r"^ +(?:-\w, )?(--[a-z-]+)", output(snapd, command, "--help"), re.MULTILINE)


def page():
    """The page of the manual as it is read, without a warning."""
    words = [wanted("man"), "--warnings", "-E", "UTF-8", "-l", str(PAGE)]
    run = subprocess.run(
        words, capture_output=True, text=True, timeout=PATIENCE, env={"MANWIDTH": "140", "PATH": "/usr/bin:/bin"}
    )
    assert run.returncode == 0 and run.stderr == "", run
    return run.stdout


def made(script, *words):
    """How the script that makes the page and the completions ended with these words, and what it said."""
    run = subprocess.run([sys.executable, str(script), *words], capture_output=True, text=True, timeout=PATIENCE)
    assert run.stdout == "", run
    return run.returncode, run.stderr


def test_the_files_are_what_help_makes_of_them(snapd, _):
    assert made(PACKAGING / "manual.py", "--check", snapd.path) == (0, "")
    version = output(snapd, "--version").split("\n")[0]
    assert PAGE.read_text().startswith(f'.TH SNAPD 1 "" "{version}" "User Commands"\n')


def test_a_file_that_differs_is_named_and_made_anew(snapd, _):
    folder = snapd.file("packaging")
    folder.mkdir()
    script = shutil.copy(PACKAGING / "manual.py", folder)
    shutil.copy(PAGE, folder)
    status, errors = made(script, "--check", snapd.path)
    assert status == 1 and errors.count("\n") == 3 and "snapd.1" not in errors, errors
    assert all(path.name in errors for path in COMPLETIONS.values()) and not (folder / "completions").exists(), errors
    assert made(script, snapd.path) == (0, "") and made(script, "--check", snapd.path) == (0, "")
    for path in (PAGE, *COMPLETIONS.values()):
        assert (folder / path.relative_to(PACKAGING)).read_bytes() == path.read_bytes(), path
    (folder / "snapd.1").write_bytes(PAGE.read_bytes() + b"\n")
    status, errors = made(script, "--check", snapd.path)
    assert status == 1 and errors.count("\n") == 1 and "packaging/snapd.1 " in errors, errors
    status, errors = made(script, "--check", "no/such")
    assert status == 1 and "no/such: run make build first" in errors, errors


def test_the_page_has_no_warning(snapd, _):
    groff = wanted("groff")
    page()
    run = subprocess.run([groff, "-man", "-ww", "-Tutf8", str(PAGE)], capture_output=True, timeout=PATIENCE)
    assert run.returncode == 0 and run.stderr == b"", run.stderr


def test_the_page_names_all_that_help_names(snapd, _):
    text = page()
    for section in ("NAME", "SYNOPSIS", "DESCRIPTION", "OPTIONS", "COMMANDS", "EXIT STATUS"):
        assert f"\n{section}\n" in text, section
    found = commands(snapd)
    assert len(found) == 14, found
    for command, about in found.items():
        assert f"\n   {command}\n" in text, command
        if command != "help":
            assert about in " ".join(text.split()), about
    flat = " ".join(text.split())
    for command in found.keys() - {"help"}:
        for line in output(snapd, command, "--help").splitlines():
            assert " ".join(line.split()) in flat or is_told_otherwise(line), (command, line)


def is_told_otherwise(line):
    """Whether a line of help has another form in the page: headings, usage, and what each command has."""
    return re.match(r"[A-Z][A-Za-z ]*:|  -h|  -V|Usage: |      --\S+ *<|  [<\[]", line) is not None


def test_no_line_of_the_page_is_a_request_by_chance(snapd, _):
    requests = {".TH", ".SH", ".SS", ".PP", ".TP", ".B", ".nf", ".fi"}
    for line in PAGE.read_text().splitlines():
        assert not line.startswith("'") and (not line.startswith(".") or line.split()[0] in requests), line


def test_help_names_the_page(snapd, _):
    assert "\nAll on one page: `man snapd`.\n" in output(snapd, "help")


def test_words_of_help(snapd, _):
    assert output(snapd, "help") == output(snapd, "--help")
    for command in commands(snapd).keys() - {"help"}:
        assert output(snapd, "help", command) == output(snapd, command, "--help")
    for words in (
        ["--foo"], ["--man"], ["--man", "serve"], ["--completions"], ["--completions", "bash"], ["--completions=bash"],
        ["x"], [""],
    ):
        snapd("help", *words).gave(2, errors=UNKNOWN.format(words[0]))
    snapd("help", "serve", "--man").failed_with(2, "unrecognized subcommand '--man'")
    snapd("--man").failed_with(2, "unexpected argument '--man' found")


def completed(snapd, *words):
    """What bash offers for the last of these words after `snapd`."""
    run = subprocess.run(
        [wanted("bash"), "--norc", "-c", TRY, "bash", str(COMPLETIONS["bash"]), "snapd", *words],
        cwd=snapd.folder,
        capture_output=True,
        text=True,
        timeout=PATIENCE,
    )
    assert run.returncode == 0 and run.stderr == "", run
    return " ".join(sorted(run.stdout.split("\n"))).strip()


def test_bash_completes_commands_and_options(snapd, _):
    assert completed(snapd, "") == " ".join(sorted([*commands(snapd), "--help", "--version"]))
    assert completed(snapd, "s") == "script serve"
    for command in commands(snapd).keys() - {"help"}:
        assert completed(snapd, command, "--") == " ".join(sorted(options(snapd, command))), command
    assert completed(snapd, "put", "F", "--i") == "--index"
    assert completed(snapd, "help", "") == " ".join(sorted(commands(snapd).keys() - {"help"}))
    # `help` has no option.
    for option in options(snapd, "get"):
        snapd("help", option).gave(2, errors=UNKNOWN.format(option))
    assert completed(snapd, "help", "--") == ""


def test_bash_completes_files(snapd, _):
    snapd.file("a.seg").write_bytes(b"")
    snapd.file("a folder").mkdir()
    for words in (
        ("format",), ("put",), ("get", "--index", "3"), ("check",), ("migrate",), ("migrate", "a.seg"),
        ("serve", "127.0.0.1:7070"), ("load", "board"),
    ):
        assert completed(snapd, *words, "a") == "a folder a.seg", words
    assert completed(snapd, "serve", "127.0.0.1", ":", "7070", "a.seg", "--scanners", "=", "3", "a.") == "a.seg"
    for words in (("init",), ("dump",), ("load",), ("serve", "ADDR", "--dir"), ("serve", "ADDR", "--dir", "=")):
        assert completed(snapd, *words, "a") == "a folder", words
    for words in (
        ("format", "a.seg"), ("serve",), ("call",), ("watch",), ("watch", "127.0.0.1:7070"),
        ("serve", "ADDR", "--http"), ("put", "--index"), ("script",),
    ):
        assert completed(snapd, *words, "a") == "", words


def test_bash_completes_requests_and_levels(snapd, _):
    assert completed(snapd, "call", "127.0.0.1:7070", "") == REQUESTS
    assert completed(snapd, "call", "127.0.0.1", ":", "7070", "p") == "part put"
    assert completed(snapd, "call", "--tries", "3", "127.0.0.1:7070", "s") == "scan status"
    assert completed(snapd, "call", "127.0.0.1:7070", "get", "") == ""
    assert completed(snapd, "serve", "ADDR", "--log", "") == "debug error info warn"
    assert completed(snapd, "serve", "ADDR", "--log", "=", "w") == "warn"


def is_read_by(shell):
    """The shell reads its completions without a fault."""
    run = subprocess.run(
        [wanted(shell), "-n", str(COMPLETIONS[shell])], capture_output=True, text=True, timeout=PATIENCE
    )
    assert run.returncode == 0 and run.stderr == "", run


def test_bash_reads_its_completions(snapd, _):
    is_read_by("bash")


def test_zsh_reads_its_completions(snapd, _):
    is_read_by("zsh")


def test_fish_reads_its_completions(snapd, _):
    is_read_by("fish")


def test_each_shell_knows_each_command_and_option(snapd, _):
    for shell, path in COMPLETIONS.items():
        text = path.read_text()
        for command in commands(snapd):
            assert re.search(rf"\b{command}\b", text), (shell, command)
        for command in commands(snapd).keys() - {"help"}:
            for option in options(snapd, command):
                name = f"-l {option[2:]} " if shell == "fish" else option
                assert name in text, (shell, command, option)


def meanings(snapd, command):
    """Each long option of a command but those that all have, with what help says of it, without its default."""
    rows = re.findall(r"^ +(--[a-z-]+)(?: <\w+>)?  +(.*)$", output(snapd, command, "--help"), re.MULTILINE)
    return {option: re.sub(r" \[default: .*\]$", "", meaning) for option, meaning in rows}


def test_zsh_is_told_what_help_says(snapd, _):
    """Without zsh: it has the quotes of sh, and a backslash before what it would read as its own."""
    text = COMPLETIONS["zsh"].read_text()
    listed = dict(it.split(":", 1) for it in shlex.split(text.split("commands=(\n")[1].split("\n        )\n")[0]))
    found = commands(snapd)
    assert listed.keys() == {*found, "--help", "--version"}, listed
    for command in found.keys() - {"help"}:
        assert listed[command] == found[command], command
        words = re.search(rf"^        {command}\)\n(.*?) ;;$", text, re.MULTILINE | re.DOTALL)[1].replace("\\\n", " ")
        told = dict(re.match(r"(--[a-z-]+)\[(.*)\]", it).groups() for it in shlex.split(words) if it.startswith("--"))
        assert not any(re.search(r"(?<!\\)[:\[\]]", it) for it in told.values()), told
        assert {option: re.sub(r"\\(.)", r"\1", it) for option, it in told.items()} == meanings(snapd, command), told
