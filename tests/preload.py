"""Compiles the C files for LD_PRELOAD, each once."""

import errno
import functools
import pathlib
import shutil
import subprocess
import tempfile

from program import Skipped

HERE = pathlib.Path(__file__).resolve().parent


@functools.cache
def library(name):
    """The path of the library of NAME.c."""
    if shutil.which("gcc") is None:
        raise Skipped(f"{name}.c wants gcc")
    target = f"{_folder().name}/{name}.so"
    subprocess.run(["gcc", "-shared", "-fPIC", "-O1", "-Wall", "-o", target, HERE / f"{name}.c", "-ldl"], check=True)
    return target


class Accepts:
    """Refuses `count` accepts from the `first` on in servers that are started with `env`, and counts those that
    fail."""

    def __init__(self, folder, first=0, count=0, why=errno.EMFILE):
        self.failed = folder / "failed"
        self.env = {
            "LD_PRELOAD": library("accepts"), "ACCEPTS_FAILED": str(self.failed),
            "ACCEPTS_REFUSE": f"{first} {count} {why}",
        }

    def count(self):
        """How many calls have failed."""
        return self.failed.stat().st_size if self.failed.exists() else 0


@functools.cache
def _folder():
    """Removed at the end of the process."""
    return tempfile.TemporaryDirectory(prefix="snapd-preload-")
