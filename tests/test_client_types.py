"""What the package of the Python clients says of its types, as mypy reads it (it is marked by `py.typed`)."""

import re
import shutil
import subprocess

from clients import ENVIRONMENT, TOP
from program import Skipped

# What a job's author may write, with all types. No checker may accept the lines after `# not:`.
USES = """
from typing import Dict, Tuple
import snapd_client
from snapd_client import Client, Entry, Segment, Standing, WaitTimedOut, aio


def blocking(client: Client) -> None:
    stored: int = client.update(0, 1, bytearray(b"hi"))
    everything: Tuple[Entry, ...] = client.scan()
    some: Dict[int, Entry] = client.scan(segments=[0, 3])
    standings: Tuple[Standing, ...] = client.status()
    mine: Segment = client.segment(0)
    put: int = mine.put(memoryview(b"hi"))
    got: bytes = mine.get()
    number: int = mine.number
    seen: Dict[int, int] = client.wait({0: number}, timeout=30)
    try:
        client.wait(seen, 0.5)
    except WaitTimedOut as error:
        lagging: Dict[int, int] = error.lagging
        numbers: Dict[int, int] = error.numbers
    with Client("unix:/run/snapd.sock", timeout=1, tries=2, pause=0.1) as other, Client(("::1", 7070)):
        other.close()
    mine.put("hi")                                                          # not: arg-type
    mine.number = 3                                                         # not: misc
    client.wait([0, 17], timeout=30)                                        # not: arg-type
    client.wait({0: 17})                                                    # not: call-arg
    text: str = mine.get()                                                  # not: assignment
    one: Entry = client.scan(segments=[0])                                  # not: assignment


async def awaited(client: aio.Client) -> None:
    stored: int = await client.update(0, 1, b"hi")
    everything: Tuple[Entry, ...] = await client.scan()
    some: Dict[int, Entry] = await client.scan(segments=[0, 3])
    standings: Tuple[Standing, ...] = await client.status()
    mine: aio.Segment = client.segment(0)
    put: int = await mine.put(b"hi")
    got: bytes = await mine.get()
    number: int = await mine.number
    seen: Dict[int, int] = await client.wait({0: number}, timeout=30)
    async with aio.Client("127.0.0.1:7070") as other:
        await other.close()
    text: bytes = mine.get()                                                # not: assignment
    count: int = mine.number                                                # not: assignment
    await mine.put(5)                                                       # not: arg-type
"""


def mypy(folder, *words):
    path = shutil.which("mypy")
    if path is None:
        raise Skipped("mypy isn't installed")
    return subprocess.run(
        [path, "--strict", "--cache-dir", folder / "cache", *words], cwd=folder,
        env={**ENVIRONMENT, "MYPYPATH": ENVIRONMENT["PYTHONPATH"]}, capture_output=True, text=True,
    )


def test_the_package_is_typed_as_it_says(program, _):
    run = mypy(program.folder, "-p", "snapd_client")
    assert run.returncode == 0, run.stdout
    files = sorted((TOP / "clients" / "python" / "snapd_client").glob("*.py"))
    for file in files:
        assert "# type: ignore" not in file.read_text(), file
    assert (TOP / "clients" / "python" / "snapd_client" / "py.typed").read_bytes() == b""


def test_uses_are_told_apart_by_their_types(program, _):
    (program.folder / "uses.py").write_text(USES)
    run = mypy(program.folder, "uses.py")
    found = {int(line): kind for line, kind in re.findall(r"^uses\.py:(\d+): error: .*\[([\w-]+)\]$", run.stdout, re.M)}
    wanted = {at: line.partition("# not: ")[2] for at, line in enumerate(USES.splitlines(), 1) if "# not: " in line}
    assert found == wanted, run.stdout


def test_the_examples_are_typed_as_they_say(program, _):
    run = mypy(program.folder, TOP / "clients" / "python" / "examples" / "resuming_job.py")
    assert run.returncode == 0, run.stdout
