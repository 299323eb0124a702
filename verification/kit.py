"""The kit's command `rt`: what it calls itself, and its parts, by which crates are built, proved and laid here."""

import functools
import importlib.machinery
import importlib.util
import operator
import pathlib
import shutil
import subprocess
import sys

sys.dont_write_bytecode = True
# The parts of `rt` that these scripts go by.
PARTS = """main in_lanes processors free seeded edited drop_to_nobody STORE BACKENDS own_sum kit_sum Crate.ci
 Crate.compile_by Crate.sources_below Kept.key Kept.give Kept.place Kept.tried rtlib.KIT rtlib.RUNNER rtlib.crates_below
 rtlib.kit_sources""".split()


@functools.lru_cache(maxsize=None)
def identity():
    """The kit's one-line identity: its release, and the logic that its proofs are of."""
    return subprocess.run(["rt", "version"], capture_output=True, text=True, check=True).stdout.strip()


def release():
    return identity().partition(" ")[0]


def logic():
    """The logic in which a proof holds, whichever release finds it; the whole identity if the kit doesn't say."""
    return identity().partition(" ")[2] or identity()


@functools.lru_cache(maxsize=None)
def load():
    """The command `rt` as a module. Ends the program where it lacks one of its parts."""
    loader = importlib.machinery.SourceFileLoader("rt_of_the_kit", str(pathlib.Path(shutil.which("rt")).resolve()))
    rt = importlib.util.module_from_spec(importlib.util.spec_from_loader("rt_of_the_kit", loader))
    loader.exec_module(rt)
    try:
        operator.attrgetter(*PARTS)(rt)
    except AttributeError as lack:
        sys.exit(f"{identity()} lacks what {pathlib.Path(sys.argv[0]).name} goes by: {lack}: look through it first")
    return rt
