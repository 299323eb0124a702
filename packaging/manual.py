"""Writes the page of the manual, and what completes words of `snapd` in bash, zsh and fish, from the program's help.

    python3 packaging/manual.py [--check] [PROGRAM]

They are packaging/snapd.1 and what is in packaging/completions. PROGRAM is bin/snapd where none is named. With --check
nothing is written: each file that isn't what this program's help makes of it is named, and the status is 1 where there
is one.
"""

import argparse
import pathlib
import re
import subprocess
import sys
from dataclasses import dataclass

HERE = pathlib.Path(__file__).resolve().parent

# A text of help: what the program or command does, its usage, the rows of its commands or arguments, those of its
# options, and its long text.
ROWS = r"((?: .*\n)+)"
HELP = re.compile(rf"(.*)\n\nUsage: (.*)\n\n(?:(?:Commands|Arguments):\n{ROWS}\n)?Options:\n{ROWS}\n([\s\S]*)\n")
# A row: a term, and behind two spaces or more what it means.
ROW = re.compile(r" +(\S.*?)  +(.*)\n")
# What a meaning ends with: the default, or words of which one is given, with what goes behind each in capitals.
DEFAULT = re.compile(r" \[default: .*\]$")
WORD = "[a-z]+(?: [A-Z]+)*"
WORDS = re.compile(rf": ((?:{WORD}, )*{WORD} or {WORD})$")
# What help calls values that are paths.
FILES, FOLDERS = ("FILE", "OLD", "NEW", "DUMP"), ("DIR", "ADDR|DIR")


@dataclass(frozen=True)
class Argument:
    """An option, or a word of a command's own: its term in help, what it means, and the words of which one is given."""

    term: str
    meaning: str
    words: tuple = ()

    @classmethod
    def of(cls, term, meaning):
        """The argument of a row of help."""
        listed = WORDS.search(DEFAULT.sub("", meaning))
        return cls(term, meaning, tuple(it.split()[0] for it in re.split(", | or ", listed[1])) if listed else ())

    @property
    def names(self):
        """The names of an option, the long one last; none of a word of the command's own."""
        return re.findall(r"(?<!\S)--?[a-zA-Z-]+", self.term)

    @property
    def value(self):
        """What help calls the value, as I of `--index <I>`; empty for an option that has none."""
        return re.sub(r".*[<[](.*)[]>].*", r"\1", self.term) if re.search(r"[<[]", self.term) else ""

    @property
    def has_many(self):
        """Whether it takes more than one word."""
        return self.term.endswith("...")

    @property
    def short_meaning(self):
        """What it means, without its default."""
        return DEFAULT.sub("", self.meaning)


@dataclass(frozen=True)
class Command:
    """A command as its help has it."""

    name: str
    about: str
    usage: str
    arguments: list
    text: str
    # Those of the program's options that it has too.
    common: list

    @property
    def options(self):
        """Those of its own."""
        return [it for it in self.arguments if it.names]

    @property
    def places(self):
        """The words of its own, in order."""
        return [it for it in self.arguments if not it.names]


@dataclass(frozen=True)
class Program:
    """The program as its help has it. Each command but `help` has the program's options too."""

    version: str
    about: str
    options: list
    commands: list
    text: str
    statuses: str


def printed(program, *words):
    """What the program prints at these words."""
    run = subprocess.run([program, *words], stdin=subprocess.DEVNULL, capture_output=True, encoding="utf-8")
    if run.returncode or run.stderr:
        sys.exit(f"{program} {' '.join(words)} ends with status {run.returncode}: {run.stderr.strip()}")
    return run.stdout


def read_help(program, *words):
    """The parts of the help that these words ask for, with its rows as pairs."""
    found = HELP.fullmatch(printed(program, *words))
    if found is None:
        sys.exit(f"{program} {' '.join(words)} prints no help of the form that manual.py knows")
    about, usage, rows, options, text = found.groups()
    return about, usage, ROW.findall(rows or ""), ROW.findall(options), text


def command_of(program, name, common):
    """This command. Its rows of these options are the program's."""
    about, usage, rows, options, text = read_help(program, name, "--help")
    own = [Argument.of(*it) for it in [*rows, *options] if it not in common]
    return Command(name, about, usage, own, text, [Argument(*it) for it in common])


def help_command(names):
    """The command for help, of which the program's parser has words of its own."""
    argument = Argument("[COMMAND]", "The command to print the help of", tuple(names))
    about, text = "Print the help of the program or of a command", "Example:\n  snapd help serve"
    return Command("help", about, "snapd help [COMMAND]", [argument], text, [])


def read_program(program):
    """All that the program's help says."""
    about, _, rows, options, text = read_help(program, "help")
    names = [name for name, _ in rows if name != "help"]
    commands = [*(command_of(program, it, options) for it in names), help_command(names)]
    version = printed(program, "--version").split("\n")[0]
    text, _, statuses = text.partition("\n\nExit status:\n")
    return Program(version, about, [Argument(*it) for it in options], commands, text, statuses)


# ---- the page, in roff

# What the page has besides the program's help: how what is installed beside the program serves a folder.
SERVICE = """\
The package snapd-board brings a unit of systemd, a user and a group, all called snapd-board, and the
folder /var/lib/snapd-board. After `make install` run these, which make the user, the group and the
folder, and tell systemd of the unit:

  systemd-sysusers
  systemd-tmpfiles --create
  systemctl daemon-reload

Nothing is started. As root, once for a board that is called sim here:

  systemctl enable snapd-board@sim
  install -d -o snapd-board -g snapd-board -m 700 /var/lib/snapd-board/sim
  runuser -u snapd-board -- snapd init /var/lib/snapd-board/sim --count 4
  systemctl start snapd-board@sim

From then on it is served at 127.0.0.1:7070, also after each boot. The unit makes no files, so that an
empty disk that was mounted there by mistake isn't served: without files it ends with status 3.

`systemctl edit snapd-board@sim` changes address and options. A second board needs a port of its own:

  [Service]
  Environment=ADDRESS=127.0.0.1:7071
  Environment="OPTIONS=--scanners 8 --http 127.0.0.1:7081"

`journalctl -u snapd-board@sim` prints its log, and `snapd call 127.0.0.1:7070 health` whether all is
well. `systemctl stop` ends it at once, and loses nothing. After an upgrade of the program restart it.
Removing the package stops all boards, and keeps their folders and the user."""
PATHS = """\
  /var/lib/snapd-board/NAME                        the files of the board NAME
  PREFIX/lib/systemd/system/snapd-board@.service   the unit, with its own comments
  PREFIX/share/doc/snapd-board/docs/RECIPES.md     backups, upgrades, what to do on each message
  PREFIX/share/doc/snapd-board/packaging           files for Prometheus, Grafana and Kubernetes

PREFIX is /usr for the package, and /usr/local for a `make install` that names no other."""

ROFF = str.maketrans({"\\": r"\e", "-": r"\-", "'": r"\(aq", "`": r"\(ga", '"': r"\(dq", "^": r"\(ha", "~": r"\(ti"})


def line(text):
    """A line of text. What it begins with is no request to roff, whatever the text is."""
    return rf"\&{text.translate(ROFF)}"


def block(text):
    """Lines that stay as they are."""
    return [".PP", ".nf", *map(line, text.split("\n")), ".fi"]


def heading(request, text):
    """A heading: `SH` begins a section, and `SS` one inside it."""
    return f'.{request} "{text.translate(ROFF)}"'


def terms(arguments):
    """Each argument in bold type, with what it means behind it."""
    return [it for one in arguments for it in (".TP", rf"\fB{one.term.translate(ROFF)}\fR", line(one.meaning))]


def section(command):
    """The command: what it does, its usage, its arguments and its long text."""
    head = [heading("SS", command.name), ".PP", line(command.about), ".PP", line(command.usage)]
    return [*head, *terms(command.arguments), *block(command.text)]


def page(program):
    """The page of the manual, for section 1."""
    lines = [f'.TH SNAPD 1 "" "{program.version}" "User Commands"']
    lines += [heading("SH", "NAME"), rf"snapd \- {program.about.translate(ROFF)}"]
    lines += [heading("SH", "SYNOPSIS"), ".B snapd", "COMMAND [OPTIONS] ..."]
    lines += [heading("SH", "DESCRIPTION"), *block(program.text)]
    lines += [heading("SH", "OPTIONS"), ".PP", line("The program and each command but help take:")]
    lines += terms(program.options)
    lines += [heading("SH", "COMMANDS"), *(it for command in program.commands for it in section(command))]
    for name, text in (("EXIT STATUS", program.statuses), ("A SERVICE OF THE SYSTEM", SERVICE), ("FILES", PATHS)):
        lines += [heading("SH", name), *block(text)]
    return "".join(f"{it}\n" for it in lines)


# ---- bash

# Bash parts words at `:` and `=` too, so an address is several of them, and so is an option with its value. The loop
# counts the command's own words before the one that is completed. Each offer is a line, so a path may have spaces.
BASH = """\
# Completes the words of snapd in bash.
_snapd_offer() {
    [[ $1 == -W ]] || compopt -o filenames 2> /dev/null
    mapfile -t COMPREPLY < <(compgen "$@" -- "$word")
}
_snapd() {
    local word=${COMP_WORDS[COMP_CWORD]} before=${COMP_WORDS[COMP_CWORD-1]}
    local command=${COMP_WORDS[1]} place=0 at=2
    COMPREPLY=()
    if [[ $word == = ]]; then
        word=
    elif [[ $before == = ]]; then
        before=${COMP_WORDS[COMP_CWORD-2]}
    fi
    if ((COMP_CWORD < 2)); then
        _snapd_offer -W '%(names)s'
        return
    fi
    while ((at < COMP_CWORD)); do
        case ${COMP_WORDS[at]} in
            :*) ((at += 2)) ;;
            %(valued)s)
                [[ ${COMP_WORDS[at+1]} != = ]] || ((at += 1))
                ((at += 2)) ;;
            -*) ((at += 1)) ;;
            *) ((place += 1, at += 1)) ;;
        esac
    done
    case $command:$before in
%(values)s    esac
    if [[ $word == -* ]]; then
        case $command in
%(options)s        esac
        return
    fi
    case $command:$place in
%(places)s    esac
}
complete -F _snapd snapd
"""


def bash_offer(argument):
    """What offers the argument's value, where there is something to offer."""
    if argument.words:
        return f"_snapd_offer -W '{' '.join(argument.words)}'; "
    if argument.value in FILES:
        return "_snapd_offer -f; "
    return "_snapd_offer -d; " if argument.value in FOLDERS else ""


def bash_place(place, argument):
    """The pattern of an argument's place. Of several words the first is one of a list, or each gets the same."""
    return "*" if argument.has_many and not argument.words else place


def bash(program):
    """What bash reads to complete the program's words."""
    valued = [(command.name, it) for command in program.commands for it in command.options if it.value]
    options = [(it.name, " ".join(of.names[-1] for of in [*it.options, *it.common])) for it in program.commands]
    places = [(it.name, bash_place(at, word), word) for it in program.commands for at, word in enumerate(it.places)]
    return BASH % {
        "names": " ".join([*(it.name for it in program.commands), *(it.names[-1] for it in program.options)]),
        "valued": "|".join(it.names[-1] for _, it in valued),
        "values": "".join(f"        {name}:{it.names[-1]}) {bash_offer(it)}return ;;\n" for name, it in valued),
        "options": "".join(f"            {name}) _snapd_offer -W '{its}' ;;\n" for name, its in options if its),
        "places": "".join(f"        {name}:{place}) {bash_offer(it)};;\n" for name, place, it in places),
    }


# ---- zsh

ZSH = """\
#compdef snapd
# Completes the words of snapd in zsh.
_snapd() {
    if (( CURRENT == 2 )); then
        local -a commands
        commands=(
%(names)s        )
        _describe -t commands command commands
        return
    fi
    shift words
    (( CURRENT -= 1 ))
    case $words[1] in
%(commands)s    esac
}
_snapd "$@"
"""
# What zsh would read as its own, between single quotes in what explains a word.
ZSH_QUOTED = str.maketrans({"'": r"'\''", "\\": r"\\", "[": r"\[", "]": r"\]", ":": r"\:"})


def zsh_value(argument, words):
    """What the argument's value is called, and what completes it: one of these words, where there are some."""
    if words:
        return f":{argument.value}:({' '.join(words)})"
    offers = {**dict.fromkeys(FILES, "_files"), **dict.fromkeys(FOLDERS, "_files -/")}
    return f":{argument.value}:{offers.get(argument.value, ' ')}"


def zsh_option(option):
    """An option with what it means, and what completes its value."""
    value = zsh_value(option, option.words) if option.value else ""
    return f"'{option.names[-1]}[{option.short_meaning.translate(ZSH_QUOTED)}]{value}'"


def zsh_place(place, argument):
    """What completes the word at this place, from 1. Of several the first is one of a list, or each gets the same."""
    if argument.words or not argument.has_many:
        yield f"'{place}{zsh_value(argument, argument.words)}'"
    if argument.has_many:
        yield f"'*{zsh_value(argument, ())}'"


def zsh_command(command):
    """What completes the words of the command."""
    options = [zsh_option(it) for it in command.options]
    places = [row for at, it in enumerate(command.places) for row in zsh_place(at + 1, it)]
    common = " ".join(f"{{{','.join(it.names)}}}'[{it.meaning}]'" for it in command.common)
    rows = "".join(f" \\\n                {it}" for it in [*options, *places, common] if it)
    return f"        {command.name})\n            _arguments{rows} ;;\n"


def zsh(program):
    """What zsh finds in its `fpath` to complete the program's words."""
    named = [(it.name, it.about) for it in program.commands] + [(it.names[-1], it.meaning) for it in program.options]
    return ZSH % {
        "names": "".join(f"            '{name}:{about.translate(ZSH_QUOTED)}'\n" for name, about in named),
        "commands": "".join(map(zsh_command, program.commands)),
    }


# ---- fish

# The functions say whether the words have no command yet, and whether this is their command.
FISH = """\
# Completes the words of snapd in fish.
function __snapd_none
    test (count (commandline -opc)) -lt 2
end
function __snapd_is
    set -l words (commandline -opc)
    test (count $words) -ge 2; and test $words[2] = $argv[1]
end
complete -c snapd -f
"""
FISH_QUOTED = str.maketrans({"'": r"\'", "\\": r"\\"})


def fish_meaning(text):
    return f" -d '{text.translate(FISH_QUOTED)}'"


def fish_value(argument):
    """What completes the argument's value."""
    if argument.words:
        return f" -x -a '{' '.join(argument.words)}'"
    if argument.value in FILES:
        return " -r -F" if argument.names else " -F"
    return " -x -a '(__fish_complete_directories)'" if argument.value in FOLDERS else " -x"


def fish_argument(argument):
    """An option with what it means and what completes its value, or what completes a word of the command's own."""
    name = f" -l {argument.names[-1][2:]}{fish_meaning(argument.short_meaning)}" if argument.names else ""
    return name + (fish_value(argument) if argument.value else "")


def fish_command(command):
    """What completes the words of the command, each of which has a name or something to offer."""
    offered = [it for it in map(fish_argument, command.arguments) if it != " -x"]
    return "".join(f"complete -c snapd -n '__snapd_is {command.name}'{it}\n" for it in offered)


def fish(program):
    """What fish reads to complete the program's words."""
    common = "".join(f"complete -c snapd -n 'not __snapd_is help'{fish_argument(it)}\n" for it in program.options)
    named = [f"complete -c snapd -n __snapd_none -a {it.name}{fish_meaning(it.about)}\n" for it in program.commands]
    return FISH + common + "".join([*named, *map(fish_command, program.commands)])


# ---- the files

MADE = {"snapd.1": page, "completions/snapd.bash": bash, "completions/_snapd": zsh, "completions/snapd.fish": fish}


def write(texts):
    """Writes the files."""
    (HERE / "completions").mkdir(exist_ok=True)
    for name, text in texts.items():
        (HERE / name).write_text(text, encoding="utf-8")
    return 0


def check(texts):
    """Names each file that has another text, or isn't there."""
    differ = [it for it, text in texts.items() if not (HERE / it).exists() or (HERE / it).read_bytes() != text.encode()]
    for name in differ:
        print(f"packaging/{name} isn't what help makes of it: run python3 packaging/manual.py", file=sys.stderr)
    return 1 if differ else 0


def main():
    words = argparse.ArgumentParser(description="Writes the page of the manual and the completions, from help.")
    words.add_argument("--check", action="store_true", help="write nothing, and name each file that differs")
    words.add_argument("program", nargs="?", metavar="PROGRAM", default=str(HERE.parent / "bin" / "snapd"))
    words = words.parse_args()
    program = pathlib.Path(words.program).resolve()
    if not program.exists():
        sys.exit(f"there is no {program}: run make build first")
    read = read_program(str(program))
    texts = {name: made(read) for name, made in MADE.items()}
    return check(texts) if words.check else write(texts)


if __name__ == "__main__":
    sys.exit(main())
