"""The two locks, by which it is known what was proved and what was refused (docs/PROMISES.md has what their digests are
of, and which command writes and which one checks them). A line is only a claim of its author."""

import datetime
import functools
import re
from collections import namedtuple
from dataclasses import dataclass

import kit
from digests import Digests, summed
from tree import crates_of, proved_crates, texts_of

LOCK = "proofs.lock"
# What the kit says of an edit, and of one that took a name away which a proof cites: that says nothing of the contract.
SAID = re.compile(r"rt: must-fail (\S+/\S+): (refused|NOT REFUSED|BAD EDIT|NOT TRIED)(.*)")
NAMELESS = "only because a proof file names"
Proved, Refusal = namedtuple("Proved", "digest release day seconds"), namedtuple("Refusal", "digest release")


@dataclass
class Lock:
    """What a checkout has, by its digests, and the lines of one of its locks, by name, each with a digest first. A kind
    of lock has a `file` with a `head`, and says `what` its lines tell and which tuple a `line` is."""

    digests: dict
    lines: dict
    name = staticmethod(str)

    @classmethod
    def read(cls, top):
        """The lines of a checkout's lock, by name."""
        text = (top / cls.file).read_text() if (top / cls.file).exists() else ""
        rows = (line.split() for line in text.split("\n") if line and not line.startswith("#"))
        return {name: cls.line(*rest) for name, *rest in rows}

    def known(self):
        """What the lock has as it is now."""
        return [it for it, digest in self.digests.items() if self.lines.get(self.name(it), ("",))[0] == digest]

    def missing(self):
        """What the lock doesn't have as it is now."""
        known = {*self.known()}
        return [it for it in self.digests if it not in known]

    def told(self):
        """One line on how much of the checkout the lock has."""
        return f"{self.file}: {len(self.known())} of {len(self.digests)} {self.what} as they are here"

    def write(self, top):
        """Writes the lock, without what was removed or has changed."""
        names = sorted(map(self.name, self.known()))
        rows = (" ".join(map(str, (it, *self.lines[it]))) + "\n" for it in names)
        (top / self.file).write_text(self.head + "".join(rows))


def digests_of(top, logic):
    """The digest of each crate of a checkout that is proved."""
    crates, handles = crates_of(top), (top / "HANDLES").read_bytes()

    @functools.lru_cache(maxsize=None)
    def digest(name):
        below = [digest(it) for it in crates[name].uses if it in crates]
        return summed(logic, handles, crates[name].line, str(len(below)), *below, *texts_of(top / "crates" / name))

    return {it: digest(it) for it in proved_crates(top)}


class Record(Lock):
    """A checkout's crates by their digests, and what the record of proofs has of them."""

    file, what = LOCK, "crates were proved"
    head = """\
# Each crate that was proved whole, from nothing: the digest of all that the proof rests on, the kit's release, the day,
# and the seconds that its proof took when `make prove`, which writes this, last made it itself, maybe of other sources.
"""
    line = staticmethod(lambda digest, release, day, seconds: Proved(digest, release, day, int(seconds)))

    @classmethod
    def of(cls, top):
        return cls(digests_of(top, kit.logic()), cls.read(top))

    def told(self):
        """One line on how much of the checkout the record has, by which releases and of which days."""
        line, missing, found = super().told(), self.missing(), [self.lines[it] for it in self.known()]
        if found:
            days, releases = sorted({it.day for it in found}), sorted({it.release for it in found})
            line += f", by {', '.join(releases)}, {' to '.join(dict.fromkeys(days[:1] + days[-1:]))}"
        return line + (f"; not {', '.join(missing)}" if missing else "")

    def take(self, seconds, day=None):
        """Notes all crates as proved now, with their seconds if they have any, and drops those that no longer exist."""
        day, were, new = day or datetime.date.today().isoformat(), self.lines, {*seconds, *self.missing()}
        took = {**{name: it.seconds for name, it in were.items()}, **seconds}
        made = {name: Proved(it, kit.release(), day, took.get(name, 0)) for name, it in self.digests.items()}
        self.lines = {name: it if name in new else were[name] for name, it in made.items()}


class Edits(Lock):
    """A checkout's must-fail edits, pairs of crate and path, by their digests, and what the lock has of them."""

    file, what, line = "must-fail.lock", "edits were refused", Refusal
    head = """\
# Each edit that the prover has refused: the digest of what that rests on (the edit, its function, the contracts and
# definitions that this names, and the kit's logic), and the kit's release. Every run that tries an edit records it.
# Where names alone changed since, or what a digest leaves out, its line was carried over; make edits EVERY=1 tries all.
"""

    @classmethod
    def of(cls, top):
        digests, paths = Digests(top, kit.logic()), sorted(top.glob("crates/*/must-fail/*.edit"))
        return cls({it: digests.edit(*it) for it in ((path.parts[-3], path) for path in paths)}, cls.read(top))

    @staticmethod
    def name(edit):
        return f"{edit[0]}/{edit[1].name}"

    def take(self, chosen, lines):
        """Takes in what the kit said of these edits: how many were refused, how many not, and what is said of these."""
        found, failures = {it[1]: it.groups()[1:] for it in map(SAID.match, lines) if it}, []
        for edit in chosen:
            name = self.name(edit)
            came, text = found.get(name, ("NOT TRIED", ""))
            if came == "refused" and NAMELESS not in text:
                self.lines[name] = Refusal(self.digests[edit], kit.release())
                continue
            failures.append(f"edit {name}: {came}{text[:300]}")
            if came != "NOT TRIED":
                self.lines.pop(name, None)
        return len(chosen) - len(failures), len(failures), failures
