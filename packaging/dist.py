"""Makes a tarball of what `make c-client install` leaves, with a digest of each file and what the program was made of.

    python3 packaging/dist.py [--program bin/snapd] [--to out]

`SHA256SUMS` has the digests, and `PROVED` the commit, the kit, its logic, the record of proofs, and by the program's
own word whether it was proved, and of which commit. Names are sorted, times are the commit's, and everything is
root's: one commit and one program make the same bytes in each folder.
"""

import argparse
import gzip
import hashlib
import io
import os
import pathlib
import platform
import subprocess
import sys
import tarfile
import tempfile

TOP = pathlib.Path(__file__).resolve().parent.parent
sys.path[:0] = [str(TOP / "verification"), str(TOP / "packaging")]

import kit  # noqa: E402
import locks  # noqa: E402
import notices  # noqa: E402
import version  # noqa: E402

DOC = "share/doc/snapd-board"
# How the client in C is compiled: as Debian does it, whatever the environment says.
FLAGS = ("CC=gcc", "AR=ar", "CFLAGS=-O2 -fstack-protector-strong -D_FORTIFY_SOURCE=2",
         "LDFLAGS=-Wl,-z,relro,-z,now -Wl,-s")


def said(*words):
    """What a command prints."""
    return subprocess.run(list(map(str, words)), cwd=TOP, capture_output=True, text=True, check=True).stdout.strip()


def digest(path):
    return hashlib.sha256(path.read_bytes()).hexdigest()


def commit_time():
    """When the commit was made, in seconds since 1970."""
    return int(said("git", "log", "-1", "--format=%ct"))


def proved(program):
    """What the program was made of, and whether it was proved."""
    is_changed = said("git", "status", "--porcelain", "--untracked-files=no")
    own = said(program, "--version").partition("\n")[2].strip()
    lines = {
        "version": version.version(),
        "program": f"SHA-256 {digest(program)}",
        "proved": "yes" if own.startswith("proved") else "no: a check replaces each proof",
        "built": own,
        "commit": said("git", "rev-parse", "HEAD") + (", with changes that aren't committed" if is_changed else ""),
        "kit": kit.release(),
        "logic": kit.logic().removeprefix("logic "),
        "proofs.lock": f"SHA-256 {digest(TOP / locks.LOCK)}",
        "record": locks.Record.of(TOP).told(),
    }
    return "".join(f"{name}: {text}\n" for name, text in lines.items())


def installed(program, room, prefix, libraries="lib"):
    """Installs into this folder, with the client in C, PROVED and the licences, and gives the prefix's folder."""
    with tempfile.TemporaryDirectory(prefix="snapd-clients-") as clients:
        places = (f"DESTDIR={room}", f"PREFIX={prefix}", f"LIBDIR={libraries}")
        words = (f"CLIENTS={clients}", *places, f"PROGRAM={program}", *FLAGS)
        for target in ("c-client", "install"):
            subprocess.run(["make", "-s", target, *words], cwd=TOP, check=True, stdout=subprocess.DEVNULL)
    root = room / prefix.strip("/")
    (root / DOC / "PROVED").write_text(proved(program), encoding="utf-8")
    (root / DOC / "packaging" / "NOTICES").write_text(notices.with_texts(notices.licences()), encoding="utf-8")
    return root


def files_below(root):
    """The files below a folder, by their names in order."""
    return {str(it.relative_to(root)): it for it in sorted(root.rglob("*")) if it.is_file()}


def tarball(root, name, seconds):
    """The bytes of a tarball with all files below `root` in the folder `name`."""
    made, form = io.BytesIO(), tarfile.USTAR_FORMAT
    with gzip.GzipFile("", "wb", 6, made, seconds) as packed, tarfile.TarFile("", "w", packed, form) as tar:
        for path, file in files_below(root).items():
            entry = tarfile.TarInfo(f"{name}/{path}")
            entry.size, entry.mtime, entry.uname, entry.gname = file.stat().st_size, seconds, "root", "root"
            entry.mode = 0o755 if os.access(file, os.X_OK) else 0o644
            if file.is_symlink():
                entry.type, entry.size, entry.linkname = tarfile.SYMTYPE, 0, os.readlink(file)
            with file.open("rb") as data:
                tar.addfile(entry, data)
    return made.getvalue()


def arguments(about):
    words = argparse.ArgumentParser(description=about)
    words.add_argument("--program", type=pathlib.Path, default=TOP / "bin" / "snapd", metavar="PROGRAM")
    words.add_argument("--to", type=pathlib.Path, default=TOP / "out", metavar="FOLDER")
    words = words.parse_args()
    if not words.program.exists():
        sys.exit(f"there is no {words.program}: run make build first")
    words.to.mkdir(parents=True, exist_ok=True)
    return words.program.resolve(), words.to


def main():
    program, to = arguments("Makes a tarball of what `make install` leaves.")
    os.umask(0o022)
    name = f"snapd-board-{version.version()}"
    path = to / f"{name}-linux-{platform.machine()}.tar.gz"
    with tempfile.TemporaryDirectory(prefix="snapd-dist-") as room:
        root = installed(program, pathlib.Path(room), "/usr/local")
        for it in ("PROVED", *(["LICENSE"] if (TOP / "LICENSE").exists() else [])):
            (root / it).write_bytes((root / DOC / it).read_bytes())
        sums = "".join(f"{digest(file)}  {it}\n" for it, file in files_below(root).items())
        (root / "SHA256SUMS").write_text(sums, encoding="utf-8")
        path.write_bytes(tarball(root, name, commit_time()))
        print(f"{path}\nSHA-256 {digest(path)}\n{(root / 'PROVED').read_text()}", end="")


if __name__ == "__main__":
    main()
