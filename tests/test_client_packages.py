"""The packages of the Python client: what they hold, that they are the same bytes each time, and that pip installs them
without a network."""

import os
import pathlib
import re
import subprocess
import sys
import tarfile
import time
import zipfile

from clients import TOP
from program import Skipped

FOLDER = TOP / "clients" / "python"
SOURCES = sorted(f"snapd_client/{it.name}" for it in (FOLDER / "snapd_client").glob("*.[pt]y*") if it.is_file())


def built(folder, source=FOLDER):
    """The wheel and the sdist that the script of this source writes into a folder."""
    folder.mkdir()
    run = subprocess.run([sys.executable, source / "build_wheel.py", folder], capture_output=True, text=True)
    assert (run.returncode, run.stderr) == (0, ""), run
    names = run.stdout.split()
    assert sorted(names) == sorted(it.name for it in folder.iterdir()) and len(names) == 2
    return [folder / it for it in names]


def clean():
    """The environment with neither an index nor a folder of packages of this machine."""
    plain = {name: text for name, text in os.environ.items() if not name.startswith(("PIP_", "PYTHON"))}
    return {**plain, "PIP_NO_INDEX": "1"}


def ran(folder, *words):
    """What a program of the environment prints."""
    words = [folder / "environment" / "bin" / words[0], *words[1:]]
    run = subprocess.run(words, env=clean(), cwd=folder, capture_output=True, text=True)
    assert run.returncode == 0, run
    return run.stdout


def installs(folder, package):
    """Installs a package into the environment, and returns what it says of its version there."""
    ran(folder, "pip", "install", package)
    says = "import snapd_client; print(snapd_client.__file__, snapd_client.__version__)"
    path, version = ran(folder, "python", "-c", says).split()
    assert pathlib.Path(path).is_relative_to(folder) and (pathlib.Path(path).parent / "py.typed").exists()
    ran(folder, "pip", "uninstall", "--yes", "snapd_client")
    return version


def test_pip_installs_the_python_client_without_a_network_and_leaves_its_folder_as_it_is(snapd, _):
    made = subprocess.run([sys.executable, "-m", "venv", snapd.folder / "environment"], capture_output=True, text=True)
    if made.returncode:
        raise Skipped(f"no virtual environment can be made here: {(made.stdout + made.stderr).strip()[-200:]}")
    before = sorted(FOLDER.rglob("*"))
    version = installs(snapd.folder, FOLDER)
    assert sorted(FOLDER.rglob("*")) == before
    assert f'version = "{version}"' in (FOLDER / "pyproject.toml").read_text()
    for package in built(snapd.folder / "packages"):
        assert package.name.startswith(f"snapd_client-{version}") and installs(snapd.folder, package) == version


def test_packages_are_the_same_bytes_each_time(snapd, _):
    """Also those that are built from the sdist, later, and under other rights for what is made."""
    first = built(snapd.folder / "first")
    with tarfile.open(first[1]) as archive:
        archive.extractall(snapd.folder)
    # Beyond the steps of a zip's clock.
    time.sleep(2.1)
    mask = os.umask(0o077)
    try:
        second = built(snapd.folder / "second", snapd.folder / first[1].name.removesuffix(".tar.gz"))
    finally:
        os.umask(mask)
    assert [it.read_bytes() for it in second] == [it.read_bytes() for it in first]


def test_the_wheel_and_the_sdist_hold_the_package(snapd, _):
    wheel, sdist = built(snapd.folder / "packages")
    with zipfile.ZipFile(wheel) as archive:
        names = archive.namelist()
        told = archive.read(next(it for it in names if it.endswith("/METADATA"))).decode()
        assert names[:-3] == SOURCES and [it.rpartition("/")[2] for it in names[-3:]] == ["METADATA", "WHEEL", "RECORD"]
        assert all(archive.read(it) == (FOLDER / it).read_bytes() for it in SOURCES)
    with tarfile.open(sdist) as archive:
        top = sdist.name.removesuffix(".tar.gz")
        held = {it.name.removeprefix(f"{top}/"): archive.extractfile(it).read() for it in archive}
        assert {(it.uid, it.gid, it.mode, it.isfile()) for it in archive} == {(0, 0, 0o644, True)}
    assert held.pop("PKG-INFO").decode() == told
    assert list(held) == sorted(["README.md", "build_wheel.py", "examples/resuming_job.py", "pyproject.toml", *SOURCES])
    assert all(data == (FOLDER / name).read_bytes() for name, data in held.items())
    classifiers = re.findall(r'^    "(.* :: .*)",$', (FOLDER / "pyproject.toml").read_text(), re.M)
    assert classifiers and classifiers == re.findall(r"^Classifier: (.*)$", told, re.M)
