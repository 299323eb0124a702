"""The imports of code, contracts and proofs name modules that are there: a second here saves a proof of minutes."""

import functools
import pathlib
import re
import sys

TOP = pathlib.Path(__file__).resolve().parent.parent
sys.path.insert(0, str(TOP / "verification"))

import kit  # noqa: E402

IMPORT = re.compile(r"\bRattle\.(\w+)\.(specs|proofs)\.(?:declared\.|contracts\.)?([\w.]*\w)")
# A list of imports, in which a name may stand behind its modules.
LIST = re.compile(r"\bRattle\.([\w.]+)\.\{([^{}]*)\}")
HANDED_ON = re.compile(r"^pub use Rattle\.[\w.]*?(?:\{([^{}]*)\}|(\w+)$)", re.M)


@functools.lru_cache(maxsize=None)
def modules(crate):
    """A crate's files of definitions, proofs and code (of which the prover writes modules), and what it hands on."""
    files = [it for part in ("src", "specs", "proofs") for it in (crate / part).rglob("*.*t*")]
    texts = [it.read_text() for it in (crate / "specs").rglob("*.antt")]
    handed_on = {name for text in texts for it in HANDED_ON.findall(text) for name in re.findall(r"\w+", " ".join(it))}
    return {".".join(it.relative_to(crate).with_suffix("").parts) for it in files}, handed_on


def written_out(text):
    """A text with each name of a list of imports behind its whole path."""
    return LIST.sub(lambda it: " ".join(f"Rattle.{it[1]}.{name.strip()}" for name in it[2].split(",")), text)


def is_module(name, part, path):
    crate, words = TOP / "crates" / name, path.split(".")
    if not crate.exists():
        return pathlib.Path(kit.load().rtlib.KIT, "rlibs", f"{name}.rlib").exists()
    files, handed_on = modules(crate)
    above = [".".join(words[:at]) for at in range(1, len(words) + 1)]
    return not handed_on.isdisjoint(words) or any(f"{it}.{path}" in files for path in above for it in (part, "src"))


def test_each_import_names_a_module(snapd, random):
    files = [it for part in ("src", "specs", "proofs") for it in (TOP / "crates").glob(f"*/{part}/**/*.*t*")]
    assert len(files) > 1000
    texts = ((it.relative_to(TOP), written_out(it.read_text())) for it in files)
    imports = ((file, found) for file, text in texts for found in set(IMPORT.findall(text)))
    wrong = [f"{file}: Rattle.{'.'.join(found)}" for file, found in imports if not is_module(*found)]
    assert not wrong, wrong
