"""The program under test, and what a run of it gave."""

import os
import pathlib
import subprocess
from dataclasses import dataclass

from waiting import PATIENCE


class Skipped(Exception):
    """The test can't run on this machine; the text says why."""


@dataclass
class Run:
    status: int
    output: bytes
    errors: str

    def gave(self, status, output=b"", errors=""):
        """Fails unless the run ended exactly so."""
        if isinstance(output, str):
            output = output.encode()
        wanted = Run(status, output, errors)
        assert self == wanted, f"\n  wanted {wanted}\n  got    {self}"
        return self

    def failed_with(self, status, *parts):
        """Fails unless the run printed nothing and its errors begin `snapd: ` and hold each part."""
        assert self.status == status, f"\n  wanted status {status}\n  got    {self}"
        assert self.output == b"", f"printed {self.output!r}"
        assert self.errors.startswith("snapd: ") and self.errors.endswith("\n"), self.errors
        for part in parts:
            assert part in self.errors, f"{part!r} isn't in {self.errors!r}"
        return self

    def refused(self, number, name, *more):
        """The line of a refusal, and the lines after it."""
        return self.gave(3, errors="".join(f"snapd: {line}\n" for line in (f"refused {number} {name}", *more)))


class Program:
    def __init__(self, path, folder="."):
        self.path = str(pathlib.Path(path).resolve())
        self.folder = pathlib.Path(folder)

    def at(self, folder):
        """The same program, run in this folder."""
        return Program(self.path, folder)

    def __call__(self, *words, stdin=b"", env=None, **more):
        if isinstance(stdin, str):
            stdin = stdin.encode()
        fed = {"stdin": stdin} if isinstance(stdin, int) or hasattr(stdin, "fileno") else {"input": stdin}
        more.setdefault("stdout", subprocess.PIPE)
        run = subprocess.run(
            [self.path, *map(str, words)],
            cwd=self.folder,
            stderr=subprocess.PIPE,
            env={**os.environ, **(env or {})},
            timeout=PATIENCE,
            **fed,
            **more,
        )
        return Run(run.returncode, run.stdout or b"", run.stderr.decode())

    def file(self, name="F"):
        return self.folder / name

    def formatted(self, name="F", *options):
        """A file that was just formatted."""
        assert self("format", name, *options).status == 0, "format failed"
        return self.file(name)
