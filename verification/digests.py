"""What an edit's refusal rests on, as a digest: the edit, the function that it changes, and the contracts and
definitions that this function names.

So it takes the edit, the function's text, each definition of `specs/`, each type, and each function's head with its
clauses that the text names, what these name in turn, and the kit's logic. A wrong body stays wrong whatever the bodies
of other functions and the proofs are. Nor do line breaks count, the file or crate where a text lies, and whether a type
is `Debug`. A name counts by the file's imports; a method by its name, wherever a crate below has one.
"""

import functools
import hashlib
import re
from collections import defaultdict, namedtuple

from source import function_of, items_of, without_comments
from tree import below, crates_of

# The names that a file imports from a place, as a list or one by itself.
# (Of a place that is taken whole each name may be meant.)
ALIAS = re.compile(r"^\s*(?:pub )?(?:ghost )?use Rattle\.(\w+)\.[\w.]+ as (\w+)", re.M)
IMPORTS = re.compile(
    r"^\s*(?:pub )?(?:ghost )?use (?:Rattle\.)?(\w+)(?:\.|::)(?:[\w.:]*(?:\.|::))?(?:\{([^{}]*)\}|(\w+))", re.M
)
# An import, which says nothing by itself.
USE = re.compile(r"^ *(?:pub )?(?:ghost )?use [^;{}\n]*(?:\{[^{}]*\})?[^;{}\n]*;?\n", re.M)
DEBUG = re.compile(r"^ *#\[derive\(Debug\)\]\n|(?<=derive\()Debug, |(?<=, )Debug, |, Debug(?=\)\])", re.M)
WORDS = re.compile(r"[^\s(){}\[\],;.:&|<>\"]+")
CALLED = re.compile(r"(?:\.|::)(\w+)(?=\(|::)")
# A definition, a type, or a function's head with its clauses, in a file of a crate.
Piece = namedtuple("Piece", "crate path text")


def summed(*parts):
    """The SHA-256 of these parts, each after its length, so that no two lists of parts have one sum."""
    total = hashlib.sha256()
    for part in parts:
        part = part if isinstance(part, bytes) else part.encode()
        total.update(len(part).to_bytes(8, "big") + part)
    return total.hexdigest()


def words_of(text):
    """The words of a text; of an operator its signs."""
    return {part for it in WORDS.findall(text) for part in it.split("◌") if part}


class Digests:
    """The digests of a checkout's edits under one logic."""

    def __init__(self, top, logic):
        self.top, self.logic, crates = top, logic, crates_of(top)
        self.below = {it: below(crates, it) for it in crates}
        # The pieces of each name in a crate and in a file; what a file imports under a name, as crate and name.
        self.named, self.imports, self.aliases = defaultdict(list), defaultdict(set), defaultdict(list)
        for name in crates:
            for kind in ("src/**/*.rt", "specs/**/*.antt"):
                for path in (top / "crates" / name).glob(kind):
                    self.read(name, str(path.relative_to(top / "crates")), DEBUG.sub("", without_comments(path)))

    def read(self, crate, path, text):
        """Takes in a file: what it imports and what it defines."""
        for of, names, one in IMPORTS.findall(text):
            for item in (names or one).split(","):
                # (in a list a name may stand behind its modules)
                full, _, alias = item.strip().partition(" as ")
                name = re.split(r"\.|::", full)[-1]
                for it in words_of(f"{name} {alias}"):
                    self.imports[path, it].add((crate if of in ("crate", "super", "self") else of, name))
        self.aliases[path] = [(of, re.compile(rf"\b{name}\.(\w+)")) for of, name in ALIAS.findall(text)]
        for names, body in items_of(USE.sub("", text), path):
            piece = Piece(crate, path, body)
            for it in {word for name in names for word in (name, *words_of(name))}:
                self.named[crate, it].append(piece)
                self.named[path, it].append(piece)

    def reached(self, crate, name):
        """The pieces of this name in a crate and in those below it."""
        return [it for home in (crate, *self.below.get(crate, ())) for it in self.named[home, name]]

    @functools.lru_cache(maxsize=None)
    def meant(self, crate, path, text):
        """The pieces that a text in this file names."""
        words = words_of(text)
        imported = {it for word in words for it in self.imports[path, word]}
        imported |= {(of, name) for of, alias in self.aliases[path] for name in alias.findall(text)}
        found = [it for word in words for it in self.named[path, word]]
        # (a crate may hand on what is defined below it)
        found += [piece for it in imported for piece in self.named[it] or self.reached(*it)]
        return found + [it for name in {*CALLED.findall(text)} for it in self.reached(crate, name)]

    def edit(self, crate, path):
        """The digest of an edit of a crate."""
        placed = function_of(self.top / "crates" / crate, path)
        if not placed:
            return summed(self.logic, "gone", path.name, path.read_bytes())
        own = USE.sub("", placed[1])
        # (a trait's method has the clauses of the trait's, too)
        methods = re.findall(r"\bfn (\w+)", own) if re.match(r"impl\b[^{]* for ", own) else []
        left = [it for name in methods for it in self.reached(crate, name)]
        seen, left = set(), [Piece(crate, f"{crate}/{placed[0]}", own), *left]
        while left:
            it = left.pop()
            if it not in seen:
                seen.add(it)
                left += self.meant(*it)
        # (line breaks and indentation mean nothing)
        own = [" ".join(it.split()) for it in (path.read_text(), own)]
        return summed(self.logic, path.name, *own, *sorted({" ".join(it.text.split()) for it in seen}))
