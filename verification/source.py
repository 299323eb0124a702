"""Finds the functions of a source and the definitions of a file, and where an edit lies in it."""

import re
from collections import namedtuple

import kit

HEAD = re.compile(r"^(\s*)(?:pub(?:\([a-z]+\))? )?(const )?(?:unsafe )?fn (\w+)")
IMPL = re.compile(r"^(?:pub )?(?:impl|trait)\b")
# A line that is a comment and nothing else, by the file's kind, and a text in quotes, in which such a line is none.
COMMENT = {
    ".rt": re.compile(r'(^ *//.*\n)|"(?:\\[\s\S]|[^"\\])*"|r(#+)"[\s\S]*?"\2|\'(?:\\[^\']+|[^\\\n\'])\'|//.*', re.M),
    ".antt": re.compile(r'(^ *--.*\n)|"(?:\\.|[^"\\\n])*"|--.*', re.M),
}
# The name at the beginning of a definition's line, after its keywords, and a definition that has names within, too.
DEFINED = re.compile(r"^( *)(?:(?:pub|abbrev|unfoldable|record|data|unfolding) )*([A-Za-z_◌][^\s:({]*)", re.M)
HOLDS_NAMES = re.compile(r"(?:pub )?(?:abbrev )?(?:module|data|record)\b")
DECLARED = re.compile(r"\b(?:struct|enum|trait|type|union|const|static) (\w+)")
VARIANTS = re.compile(r"^    (\w+)[ ,({=]", re.M)
BREAK = re.compile(r"\n\n+(?=\S)")
# A function of a source file: its first and last line, the head of its impl, and its own head with its clauses.
Function = namedtuple("Function", "name first last of head")


def uncommented(text, kind):
    """A text without the lines that are a comment and nothing else."""
    return COMMENT[kind].sub(lambda it: "" if it[1] else it[0], text)


def without_comments(path):
    """What a proof reads of a file: all but the lines that are comments."""
    return uncommented(path.read_text(), path.suffix) if path.suffix in COMMENT else path.read_bytes()


def functions_in(text):
    """A file's functions. In the layout of `rt fmt` each ends at the first brace in the column of its head. (One that
    may be a constant's value has its body in its head, too.)"""
    lines, found, of = text.split("\n"), [], ""
    for at, line in enumerate(lines):
        if IMPL.match(line):
            of = line
        elif line == "}":
            of = ""
        if not (head := HEAD.match(line)):
            continue
        indent, is_const, name = head.groups()
        is_short, first = line.endswith("}") and line.count("{") == line.count("}"), at
        last = at if is_short else next((it for it in range(at, len(lines)) if lines[it] == indent + "}"), at)
        # (the brace before a body stands on the head's first line, or begins or ends one in its column)
        opens = (it for it in range(at, last) if it == at or lines[it].startswith((indent + "{", indent + ")")))
        body = range(next((it + 1 for it in opens if lines[it].endswith("{") and not is_const), last), last)
        while re.match(r"\s*(#\[|///)", lines[first - 1]):
            first -= 1
        own = [lines[it] for it in range(first, last + 1) if it not in body]
        found.append(Function(name, first + 1, last + 1, of, "\n".join([of, *own])))
    return found


def items_of(text, path):
    """What a file says, as pairs of the names that it defines there and its text: definitions, types, and heads of
    functions with their clauses. (A file that writes macros is one such text.)"""
    if path.endswith(".antt"):
        blocks = [(it, HOLDS_NAMES.match(it)) for it in BREAK.split(text.strip("\n"))]
        return [({name for indent, name in DEFINED.findall(it) if not indent or holds}, it) for it, holds in blocks]
    if "macro_rules!" in text:
        return [(set(re.findall(r"\w+", text)), text)]
    functions = functions_in(text)
    taken = {at for it in functions for at in range(it.first - 1, it.last)}
    rest = "\n".join("" if at in taken else line for at, line in enumerate(text.split("\n")))
    found = [({it.name}, it.head) for it in functions]
    for block in BREAK.split(rest.strip("\n")):
        variants = VARIANTS.findall(block) if re.search(r"\benum\b", block) else []
        of = re.findall(r"\w+", re.match(r"(?:impl\b[^{]*)?", block)[0])
        found.append(({*DECLARED.findall(block), *variants, *of}, block))
    return found


def function_of(folder, edit):
    """The file that an edit changes, and the text of the function that it lies in, with the head of its impl; where it
    lies in several, or in none, the whole file's. None of an edit that can't be applied."""
    changed, _ = kit.load().edited(edit.read_text(), str(folder))
    if not changed:
        return None
    path, *others = changed
    text = (folder / path).read_text()
    lines, functions = text.split("\n"), functions_in(text)
    places = [at for at, (old, new) in enumerate(zip(lines, changed[path].split("\n")), 1) if old != new]
    # (the innermost one begins last)
    found = {next((it for it in reversed(functions) if it.first < at <= it.last), None) for at in places}
    if others or len(found) != 1 or None in found:
        return path, without_comments(folder / path)
    [function] = found
    own = "\n".join(lines[function.first - 1 : function.last])
    return path, f"{function.of}\n{uncommented(own, '.rt')}"
