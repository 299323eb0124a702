"""Files that are moved, removed or replaced under `snapd serve`: an update that would be stored in a lost file is
refused."""

import contextlib
import os
import shutil
import time

import segment_file as layout
from preload import library
from serving import SCAN, STATUS, Server, fresh, refused, segments, snapshot, standings, stored, update

TWO = [(0, b""), (1, b"hi")]
# From then on a check of the folder finds a moved file, in seconds.
SETTLED = 3


def test_a_file_that_is_moved_takes_no_update(snapd, _):
    """Once the old file is back, a restart continues from what was acknowledged."""
    for how in ("removed", "renamed", "replaced", "replaced by a copy"):
        files = segments(snapd, TWO, TWO)
        path, aside = snapd.file("S0"), snapd.file("aside")
        with Server(snapd, *files) as server:
            server.ask(update(0, 2, b"new"), stored(2))
            if how == "removed":
                os.link(path, aside)
                path.unlink()
            elif how == "replaced":
                os.link(path, aside)
                backup = snapd.file("backup")
                backup.write_bytes(layout.holding(*TWO, index=0, count=2))
                os.replace(backup, path)
            else:
                path.rename(aside)
                if how == "replaced by a copy":
                    path.write_bytes(aside.read_bytes())
            server.ask(update(0, 3, b"lost") + update(0, 3, b"lost"), refused(13, 2) + refused(6, 2))
            server.ask(SCAN + STATUS, snapshot((2, b"new"), (1, b"hi")) + standings((2, True), (1, False)))
            server.ask(update(1, 2, b"on"), stored(2))
        os.replace(aside, path)
        with Server(snapd, *files) as server:
            assert server.scan()[0] in ((2, b"new"), (3, b"lost")) and server.scan()[1] == (2, b"on"), how
            server.ask(update(0, 3, b"lost"), stored(3))


def remove(folder, _):
    (folder / "S0").unlink()


def rename(folder, _):
    (folder / "S0").rename(folder / "aside")


def rename_elsewhere(folder, elsewhere):
    (folder / "S0").rename(elsewhere / "S0")


def replace(folder, elsewhere):
    shutil.copy(folder / "S0", elsewhere / "S0")
    os.replace(elsewhere / "S0", folder / "S0")


def rename_the_folder(folder, _):
    folder.rename(folder.with_name(f"{folder.name}-away"))


def replace_the_folder(folder, elsewhere):
    shutil.copytree(folder, elsewhere / "copy")
    folder.rename(folder.with_name(f"{folder.name}-away"))
    (elsewhere / "copy").rename(folder)


class Place:
    """A server whose one file is moved in some way, in a folder of its own,
    by a path that leads there by a link or not."""

    def __init__(self, snapd, at, move, link):
        self.move, self.link, self.name = move, link, f"{move.__name__} {link}"
        self.folder, self.elsewhere = snapd.file(f"place{at}"), snapd.file(f"elsewhere{at}")
        self.elsewhere.mkdir()
        self.folder.mkdir()
        (file,) = fresh(snapd, 1, folder=self.folder.name)
        if link == "to the folder":
            snapd.file(f"link{at}").symlink_to(self.folder.name)
            file = f"link{at}/S0"
        elif link == "to the file":
            snapd.file(f"link{at}").symlink_to(file)
            file = f"link{at}"
        self.server, self.number = Server(snapd, file), 0

    def update(self):
        self.number += 1
        self.server.ask(update(0, self.number, b"there"), stored(self.number))

    def lose(self):
        """The file is moved, and the next update is refused."""
        self.move(self.folder, self.elsewhere)
        self.server.ask(update(0, self.number + 1, b"lost"), refused(13, self.number))


def test_a_file_that_is_moved_later_takes_no_update(snapd, _):
    """After its folder hasn't changed for some seconds, within a second of the last check of the file."""
    moves = (remove, rename, rename_elsewhere, replace, rename_the_folder, replace_the_folder)
    ways = [(move, link) for move in moves for link in ("none", "to the folder", "to the file")]
    with contextlib.ExitStack() as servers:
        places = [Place(snapd, at, *way) for at, way in enumerate(ways)]
        for place in places:
            servers.enter_context(place.server)
        until = time.monotonic() + SETTLED + 1
        while time.monotonic() < until:
            for place in places:
                place.update()
            time.sleep(0.2)
        for place in places:
            place.update()
            place.lose()


def test_another_file_in_the_folder_is_no_move(snapd, _):
    """Nor is a second name of the file, or one of a file that was there."""
    files = fresh(snapd, 1)
    with Server(snapd, *files) as server:
        for number in range(1, 30):
            server.ask(update(0, number, b"on"), stored(number))
            snapd.file(f"other{number}").write_bytes(b"")
            os.link(snapd.file("S0"), snapd.file(f"second{number}"))
            snapd.file(f"other{number}").rename(snapd.file("other"))


def test_a_store_looks_at_the_folder_alone(snapd, _):
    """A check of the file makes the next write more costly. So there is one a second, once the folder has settled."""
    place = snapd.file("place")
    place.mkdir()
    looks = snapd.file("looks")
    files = fresh(snapd, 1, folder="place")
    with Server(snapd, *files, env={"LD_PRELOAD": library("looks"), "LOOKS_LOG": str(looks)}) as server:
        number, until = 0, time.monotonic() + SETTLED + 1.2
        while time.monotonic() < until:
            number += 1
            server.ask(update(0, number, b"on"), stored(number))
            time.sleep(0.05)
        before, began = looks.stat().st_size, time.monotonic()
        assert before > number / 2, "a store that finds its folder new looks at the file"
        for number in range(number + 1, number + 101):
            server.ask(update(0, number, b"on"), stored(number))
        looked, took = looks.stat().st_size - before, time.monotonic() - began
        assert looked <= took + 2, f"{looked} looks at the file in {took:.1f} s"
