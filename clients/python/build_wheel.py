"""Builds the package for pip, with the standard library alone, so that it is installed without a network. It has the
hooks of PEP 517 and PEP 660. Run by itself it writes a wheel and an sdist into a folder:

    python3 build_wheel.py FOLDER

A wheel is a zip of the package's files with a folder that describes them, an sdist a tarball of this folder. Both are
the same bytes each time. The source folder stays as it is.
"""

import base64
import contextlib
import gzip
import hashlib
import io
import pathlib
import re
import sys
import tarfile
import zipfile

HERE = pathlib.Path(__file__).resolve().parent
NAME = "snapd_client"
TAG = "py3-none-any"
# The times of files in both: a zip knows none before.
YEAR = (1980, 1, 1, 0, 0, 0)
SECONDS = 315_532_800


def _told(word):
    """What pyproject.toml says of a word: a text, or a list of texts."""
    text = (HERE / "pyproject.toml").read_text(encoding="utf-8")
    return re.findall(r'"(.*)"', re.search(rf"^{word} = (\[.*?\]|.*?)$", text, re.DOTALL | re.MULTILINE)[1])


VERSION = _told("version")[0]


def _metadata():
    rows = [
        "Metadata-Version: 2.1",
        f"Name: {NAME}",
        f"Version: {VERSION}",
        f"Summary: {_told('description')[0]}",
        f"Requires-Python: {_told('requires-python')[0]}",
        *(f"Classifier: {it}" for it in _told("classifiers")),
        "Description-Content-Type: text/markdown",
        "",
        (HERE / "README.md").read_text(encoding="utf-8"),
    ]
    return "\n".join(rows).encode()


def _sources(*patterns):
    """The files below this folder that are of these patterns, by name."""
    found = {it.relative_to(HERE).as_posix(): it.read_bytes() for pattern in patterns for it in HERE.glob(pattern)}
    return dict(sorted(found.items()))


def _licence():
    """The file of the repository, which an sdist has beside this one, once there is one."""
    path = (HERE if (HERE / "PKG-INFO").exists() else HERE.parent.parent) / "LICENSE"
    return {"LICENSE": path.read_bytes()} if path.exists() else {}


def _forget_bytecode():
    """Removes what Python has kept of this file when pip had it read."""
    with contextlib.suppress(NameError, TypeError, OSError):
        kept = pathlib.Path(__cached__)
        kept.unlink()
        kept.parent.rmdir()


def _write(directory, files):
    """Writes a wheel of these files, and gives its name."""
    _forget_bytecode()
    folder, rows, name = f"{NAME}-{VERSION}.dist-info", "", f"{NAME}-{VERSION}-{TAG}.whl"
    wheel = f"Wheel-Version: 1.0\nGenerator: build_wheel\nRoot-Is-Purelib: true\nTag: {TAG}\n"
    described = {"METADATA": _metadata(), "WHEEL": wheel.encode(), **_licence()}
    files = {**files, **{f"{folder}/{path}": data for path, data in described.items()}}
    for path, data in files.items():
        digest = base64.urlsafe_b64encode(hashlib.sha256(data).digest()).rstrip(b"=").decode()
        rows += f"{path},sha256={digest},{len(data)}\n"
    files[f"{folder}/RECORD"] = f"{rows}{folder}/RECORD,,\n".encode()
    with zipfile.ZipFile(pathlib.Path(directory) / name, "w") as archive:
        for path, data in files.items():
            entry = zipfile.ZipInfo(path, YEAR)
            entry.compress_type, entry.external_attr = zipfile.ZIP_DEFLATED, 0o100644 << 16
            archive.writestr(entry, data)
    return name


def build_wheel(wheel_directory, config_settings=None, metadata_directory=None):
    return _write(wheel_directory, _sources(f"{NAME}/*.py", f"{NAME}/py.typed"))


def build_editable(wheel_directory, config_settings=None, metadata_directory=None):
    """A wheel that leads to this folder."""
    return _write(wheel_directory, {f"{NAME}.pth": f"{HERE}\n".encode()})


def build_sdist(sdist_directory, config_settings=None):
    """Writes an sdist, and gives its name."""
    _forget_bytecode()
    folder = f"{NAME}-{VERSION}"
    files = _sources("*.py", "*.md", "*.toml", "examples/*.py", f"{NAME}/*.py", f"{NAME}/py.typed")
    with open(pathlib.Path(sdist_directory) / f"{folder}.tar.gz", "wb") as file:
        with gzip.GzipFile("", "wb", fileobj=file, mtime=SECONDS) as packed:
            with tarfile.open(fileobj=packed, mode="w", format=tarfile.PAX_FORMAT) as archive:
                for path, data in {**files, "PKG-INFO": _metadata(), **_licence()}.items():
                    entry = tarfile.TarInfo(f"{folder}/{path}")
                    entry.size, entry.mtime = len(data), SECONDS
                    archive.addfile(entry, io.BytesIO(data))
    return f"{folder}.tar.gz"


if __name__ == "__main__":
    print(build_wheel(sys.argv[1]), build_sdist(sys.argv[1]), sep="\n")
