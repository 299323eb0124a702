"""The program crates/try_parts, which runs parts of the server for some tests (`make programs` builds it), and the
models of tests/oracle, which print what it has to print."""

import functools
import pathlib
import subprocess
import sys

from program import Skipped
from waiting import PATIENCE

TOP = pathlib.Path(__file__).resolve().parent.parent


def trial(*words):
    """The words that start the program."""
    program = TOP / "crates" / "try_parts" / "out" / "try_parts"
    if not program.is_file():
        raise Skipped("try_parts isn't built")
    return [str(program), *map(str, words)]


def printed(*words):
    """What the program prints with these words."""
    return subprocess.run(trial(*words), check=True, stdout=subprocess.PIPE, text=True, timeout=10 * PATIENCE).stdout


@functools.lru_cache(maxsize=None)
def foretold(word):
    """What it has to print with this word, by a model that knows nothing of it."""
    words = [sys.executable, TOP / "tests" / "oracle" / f"{word.replace('-', '_')}.py"]
    return subprocess.run(words, check=True, stdout=subprocess.PIPE, text=True).stdout
