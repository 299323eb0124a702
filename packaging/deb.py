"""Makes a package for Debian of what `make c-client install` leaves: out/snapd-board_VERSION_ARCHITECTURE.deb.

    python3 packaging/deb.py [--program bin/snapd] [--to out]

It is called snapd-board, since Ubuntu's snap daemon has the package name snapd, and none of its files is one of that
daemon's. One package has the program and its client in C, since both are small. Installing it makes the user, the group
and the folder of all boards, and starts nothing. Removing it stops the boards and keeps their folders and the user,
also when it is purged.
"""

import datetime
import email.utils
import gzip
import hashlib
import os
import pathlib
import re
import subprocess
import tempfile

import dist
import version

NAME = "snapd-board"
CONTROL = """\
Package: {name}
Version: {version}
Architecture: {architecture}
Maintainer: {maintainer}
Installed-Size: {size}
Depends: libc6 (>= {libc}), systemd | systemd-standalone-sysusers | systemd-sysusers
Section: database
Priority: optional
Description: durable server of up to 16 small values with atomic scans
 It keeps the values on which restarts depend: the step of a simulation, the
 name of a checkpoint, the holder of a lease. An update is on the disk before
 it is acknowledged, and a scan returns all values as they were at one moment.
 Every function of the program was proved to meet its contract, where the file
 PROVED among its documents says so.
 .
 The program is called snapd, and has nothing to do with the daemon of snap
 packages. The two can be installed side by side.
"""
COPYRIGHT = """\
Format: https://www.debian.org/doc/packaging-manuals/copyright-format/1.0/
Upstream-Name: snapd

Files: *
Copyright: {year} the authors of snapd
License: {licence}
{text}
Comment: The crates of the Rattle kit that are linked into the program, with
 their licences, are in /usr/share/doc/snapd-board/packaging/NOTICES.gz.
"""
CHANGELOG = """\
{name} ({version}) unstable; urgency=medium

  * What changed stands in CHANGELOG.md, beside this file.

 -- {maintainer}  {date}
"""
# What stands in place of a licence until one is chosen.
NONE_YET = "No licence is chosen yet, and all rights are reserved until then."
SCRIPTS = {
    "postinst": """\
if [ "$1" = configure ]; then
    systemd-sysusers snapd-board.conf
    install -d -m 755 /var/lib/snapd-board
    [ ! -d /run/systemd/system ] || systemctl daemon-reload
fi
""",
    "prerm": """\
if [ "$1" = remove ] && [ -d /run/systemd/system ]; then
    systemctl stop 'snapd-board@*.service'
fi
""",
    "postrm": """\
if [ "$1" = remove ] && [ -d /run/systemd/system ]; then
    systemctl daemon-reload
fi
""",
}
# The program is the very file that was proved and tested, so its names stay in it. No helper of Debian's stops all
# instances of a unit. The library is in one package with its headers, and with the program.
OVERRIDES = f"""\
{NAME}: unstripped-binary-or-object [usr/bin/snapd]
{NAME}: maintainer-script-calls-systemctl [prerm:*]
{NAME}: link-to-shared-library-in-wrong-package usr/lib/*/libsnapd.so.0 [usr/lib/*/libsnapd.so]
{NAME}: package-name-doesnt-match-sonames libsnapd0
"""
# What makes the library known to the system, and to packages that are built with it.
LIBRARY = {"triggers": "activate-noawait ldconfig\n", "shlibs": f"libsnapd 0 {NAME} (>= {version.version()})\n"}


def packed(path):
    """Replaces a file by itself as gzip packs it, with no name and no time."""
    path.with_name(f"{path.name}.gz").write_bytes(gzip.compress(path.read_bytes(), 9, mtime=0))
    path.unlink()


def arranged(root, maintainer, seconds):
    """Puts what `make install` left where Debian looks for it."""
    doc, day = root / dist.DOC, datetime.datetime.fromtimestamp(seconds, datetime.timezone.utc)
    zsh = root / "share" / "zsh"
    (zsh / "site-functions").rename(zsh / "vendor-completions")
    entry = CHANGELOG.format(
        name=NAME, version=version.version(), maintainer=maintainer, date=email.utils.format_datetime(day))
    (doc / "changelog").write_text(entry, encoding="utf-8")
    for it in (doc / "changelog", doc / "packaging" / "NOTICES", root / "share" / "man" / "man1" / "snapd.1"):
        packed(it)
    licence = dist.TOP / "LICENSE"
    text = licence.read_text(encoding="utf-8") if licence.exists() else NONE_YET
    lines = "\n".join(f" {line or '.'}" for line in text.splitlines())
    name = "chosen" if licence.exists() else "none-yet"
    (doc / "copyright").write_text(COPYRIGHT.format(licence=name, text=lines, year=day.year), encoding="utf-8")
    (doc / "LICENSE").unlink(missing_ok=True)
    overrides = root / "share" / "lintian" / "overrides"
    overrides.mkdir(parents=True)
    (overrides / NAME).write_text(OVERRIDES, encoding="utf-8")


def described(room, maintainer):
    """Writes the folder that describes the package: its control file, its digests and its scripts."""
    files = dist.files_below(room)
    linked = b"".join(it.read_bytes() for name, it in files.items() if name.endswith(("bin/snapd", ".so.0")))
    needed = max(tuple(map(int, it)) for it in re.findall(rb"\bGLIBC_(\d+)\.(\d+)", linked))
    control = CONTROL.format(
        name=NAME, version=version.version(), architecture=dist.said("dpkg", "--print-architecture"),
        maintainer=maintainer, size=sum(-(-it.stat().st_size // 1024) for it in files.values()),
        libc="{}.{}".format(*needed))
    whole = {name: it for name, it in files.items() if not it.is_symlink()}
    sums = "".join(f"{hashlib.md5(it.read_bytes()).hexdigest()}  {name}\n" for name, it in whole.items())
    scripts = {name: f"#!/bin/sh\nset -e\n{text}" for name, text in SCRIPTS.items()}
    texts = {"control": control, "md5sums": sums, **LIBRARY, **scripts}
    (room / "DEBIAN").mkdir()
    for name, text in texts.items():
        (room / "DEBIAN" / name).write_text(text, encoding="utf-8")
        (room / "DEBIAN" / name).chmod(0o755 if name in SCRIPTS else 0o644)


def main():
    program, to = dist.arguments("Makes a package for Debian of what `make install` leaves.")
    maintainer, seconds = dist.said("git", "log", "-1", "--format=%an <%ae>"), dist.commit_time()
    os.umask(0o022)
    with tempfile.TemporaryDirectory(prefix="snapd-deb-") as room:
        room = pathlib.Path(room) / "root"
        libraries = f"lib/{dist.said('gcc', '-print-multiarch')}"
        arranged(dist.installed(program, room, "/usr", libraries), maintainer, seconds)
        described(room, maintainer)
        words = ["dpkg-deb", "--root-owner-group", "-Zgzip", "--build", room, to]
        subprocess.run(words, env={**os.environ, "SOURCE_DATE_EPOCH": str(seconds)}, check=True)


if __name__ == "__main__":
    main()
