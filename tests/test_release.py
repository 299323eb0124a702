"""What leaves the repository: `make install`, the package, the tarball, the version and the notices."""

import gzip
import hashlib
import os
import pathlib
import re
import shutil
import subprocess
import sys
import tarfile
import zipfile

from program import Program, Skipped
from test_packaging import DOC, FOLDER, PACKAGING, TOP, ran, wanted
from waiting import PATIENCE

import dist  # noqa: E402  (test_packaging has put its folder on the path)
import notices  # noqa: E402
import version  # noqa: E402

UNIT = "lib/systemd/system/snapd-board@.service"
# Where a file is installed under another name or folder than its own below the documents.
ELSEWHERE = {
    "include/snapd.h": "clients/c/snapd.h",
    "include/snapd_segment.h": "clients/c/snapd_segment.h",
    "share/man/man1/snapd.1": "packaging/snapd.1",
    "share/bash-completion/completions/snapd": "packaging/completions/snapd.bash",
    "share/zsh/site-functions/_snapd": "packaging/completions/_snapd",
    "share/fish/vendor_completions.d/snapd.fish": "packaging/completions/snapd.fish",
    UNIT: "packaging/systemd/snapd-board@.service",
    **{f"lib/{it}/snapd-board.conf": f"packaging/{it}/snapd-board.conf" for it in ("sysusers.d", "tmpfiles.d")},
}
# The libraries of the client in C, below the folder for such.
LIBRARIES = ("libsnapd.so.0", "libsnapd.so", "libsnapd.a", "pkgconfig/snapd.pc")
TEXTS = ("", ".md", ".conf", ".service", ".yml", ".yaml", ".json", ".py", ".h", ".1", ".bash", ".fish")
# What of a shipped file would be the daemon's that is called snapd too: its folders, sockets, units and commands.
DAEMON = re.compile(
    r"/(?:usr/lib|usr/libexec|lib|var/lib|var/cache|var|run|etc|usr/share/doc)/snapd?(?![\w-])|/run/snapd(?!-board)"
    r"|(?<![\w-])snapd\.(?:service|socket|seeded|apparmor)\b|(?:^|[\s\"'`])/snap/|bin/snap(?![\w-])|bin/snapctl")


def texts_of(path):
    """The files of a folder that are text, or the file itself."""
    for it in sorted(path.rglob("*")) if path.is_dir() else [path]:
        if it.is_file() and it.suffix in TEXTS:
            yield it


def test_no_shipped_file_names_a_path_of_the_daemon(_, __):
    for path in (*TOP.glob("*.md"), *(TOP / it for it in ("Makefile", "docs", "packaging", "clients"))):
        for it in texts_of(path):
            for line in it.read_text(encoding="utf-8").splitlines():
                assert not DAEMON.search(line.replace(r"\-", "-")), (it.name, line)
    for line in ("/usr/lib/snapd/snapd", "/var/lib/snapd/x", "/run/snapd.socket", "a snapd.service", "/usr/bin/snap"):
        assert DAEMON.search(line), line


def make(*words):
    """How `make` ended with these words, and what it had to say of it."""
    words = [wanted("make"), "-s", "-C", str(TOP), *words]
    run = subprocess.run(words, capture_output=True, text=True, timeout=PATIENCE)
    return run.returncode, run.stderr


def test_installed_and_removed(snapd, _):
    folder = snapd.file("staged").resolve()
    place = ["PREFIX=/usr", f"DESTDIR={folder}", f"PROGRAM={snapd.path}", "CLIENTS=no/such"]
    assert make("install", *place) == (0, "")
    root = folder / "usr"
    files = dist.files_below(root)
    assert {"bin/snapd", *ELSEWHERE} == {it for it in files if not it.startswith(DOC)}
    assert {*dist.files_below(folder)} == {f"usr/{it}" for it in files}
    for name, it in files.items():
        assert it.stat().st_mode & 0o7777 == (0o755 if name == "bin/snapd" else 0o644), name
        source = snapd.path if name == "bin/snapd" else TOP / ELSEWHERE.get(name, name.removeprefix(f"{DOC}/"))
        if name != UNIT:
            assert it.read_bytes() == pathlib.Path(source).read_bytes(), name
    assert files[UNIT].read_text() == (TOP / ELSEWHERE[UNIT]).read_text().replace("/usr/local/bin/", "/usr/bin/")
    # The documents link each other, and what a reader copies.
    for name in ("README.md", "SECURITY.md", "docs/RECIPES.md", "docs/FORMATS.md"):
        text = files[f"{DOC}/{name}"].read_text()
        for target in re.findall(r"\]\(([^)#\s]*(?:docs|packaging)/[^)#\s]+)", text):
            is_there = (files[f"{DOC}/{name}"].parent / target).exists()
            assert is_there or target.endswith((".service", "snapd-board.conf")), (name, target)
    installed = Program(root / "bin" / "snapd", snapd.folder)
    installed("format", "F").gave(0, "formatted 0 of 1\n")
    assert make("uninstall", *place) == (0, "")
    assert not dist.files_below(root)


def test_the_page_of_the_manual_names_what_is_installed(snapd, _):
    """In its last section, beside the folder of a board."""
    folder = snapd.file("staged").resolve()
    assert make("install", "PREFIX=/usr", f"DESTDIR={folder}", f"PROGRAM={snapd.path}", "CLIENTS=no/such") == (0, "")
    page = (PACKAGING / "snapd.1").read_text().replace(r"\-", "-")
    board, *paths = re.findall(r"^\\&  (\S*/\S+)  +\S", page.partition('.SH "FILES"')[2], re.M)
    assert board == FOLDER.replace("%i", "NAME") and len(paths) == 3, paths
    for path in paths:
        prefix, _, below = path.partition("/")
        assert prefix == "PREFIX" and (folder / "usr" / below).exists(), path


def test_nothing_is_installed_before_it_is_built(snapd, _):
    folder = snapd.file("staged").resolve()
    status, errors = make("install", f"DESTDIR={folder}", "PROGRAM=no/such")
    assert status != 0 and "run make build first" in errors and not folder.exists(), errors


# ---- the version and the notices ----

def test_each_place_has_the_version(snapd, _):
    """Of the program, both clients, the page of the manual, the manifest for Kubernetes and the changelog."""
    it = version.version()
    assert snapd("--version").output.decode().splitlines()[0] == f"snapd {it}"
    ran(sys.executable, PACKAGING / "version.py", "--check")
    assert f"\n## {it}" in (TOP / "CHANGELOG.md").read_text()
    told = "import snapd_client; print(snapd_client.__version__)"
    assert ran(sys.executable, "-B", "-c", told, cwd=TOP / "clients" / "python") == f"{it}\n"


def copied(snapd, *names):
    """A folder with these of the repository's."""
    top = snapd.file("copy").resolve()
    for name in names:
        (top / name).parent.mkdir(parents=True, exist_ok=True)
        shutil.copytree(TOP / name, top / name) if (TOP / name).is_dir() else shutil.copy(TOP / name, top / name)
    return top


def test_a_new_version_is_written_everywhere(snapd, _):
    source = "crates/snap_args/src/grammar.rt"
    others = (it for it in version.PLACES if not it.startswith("packaging"))
    top = copied(snapd, "packaging", "CHANGELOG.md", source, *others)
    (top / source).write_text((top / source).read_text().replace(f'= "{version.version()}"', '= "9.10.11"', 1))
    script = [sys.executable, str(top / "packaging" / "version.py")]
    run = subprocess.run(script, capture_output=True, text=True, timeout=PATIENCE)
    assert run.returncode == 1 and run.stderr == "CHANGELOG.md has no section of 9.10.11\n", run
    (top / "CHANGELOG.md").write_text("# Changelog\n\n## 9.10.11\n")
    ran(*script, "--check")
    for name in version.PLACES:
        assert (top / name).read_text() == (TOP / name).read_text().replace(version.version(), "9.10.11", 1), name
        (top / name).write_text((TOP / name).read_text())
        run = subprocess.run([*script, "--check"], capture_output=True, text=True, timeout=PATIENCE)
        said = f"another version than 9.10.11: {name}: run python3 packaging/version.py\n"
        assert run.returncode == 1 and run.stderr == said, run
        ran(*script)


def test_a_licence_goes_along_once_there_is_one(snapd, _):
    """Into the installation, of which package and tarball are made, and the wheel."""
    top = copied(snapd, "Makefile", "packaging", "docs", "clients", "README.md", "CHANGELOG.md", "SECURITY.md")
    for text in ("", "Do as you like.\n"):
        if text:
            (top / "LICENSE").write_text(text)
        folder = snapd.file(f"staged{len(text)}").resolve()
        ran(wanted("make"), "-s", "install", f"DESTDIR={folder}", f"PROGRAM={snapd.path}", cwd=top)
        built = f"import build_wheel; build_wheel.build_wheel({str(folder)!r})"
        ran(sys.executable, "-c", built, cwd=top / "clients" / "python")
        (wheel,) = folder.glob("*.whl")
        with zipfile.ZipFile(wheel) as packed:
            found = [packed.read(it).decode() for it in packed.namelist() if it.endswith("/LICENSE")]
        found += [it.read_text() for it in folder.rglob("LICENSE")]
        assert found == [text] * 2 if text else not found, found


def test_notices_name_the_crates_of_the_kit(_, __):
    wanted("rt")
    ran(sys.executable, PACKAGING / "notices.py", "--check")
    (line,) = re.findall(r"^snapd: (.*)$", (TOP / "crates.txt").read_text(), re.M)
    assert {it for it in line.split() if not it.startswith("snap")} <= notices.licences().keys()


# ---- the package and the tarball ----

def packaged(program, script, folder, top=TOP):
    """What a script of `packaging/` makes of a program."""
    for it in ("rt", "git", "make", "gcc"):
        wanted(it)
    if subprocess.run(["git", "-C", str(top), "rev-parse"], capture_output=True).returncode:
        raise Skipped("this is no checkout")
    ran(sys.executable, top / "packaging" / script, "--program", program, "--to", folder)
    (made,) = pathlib.Path(folder).iterdir()
    return made


def test_a_tarball_has_what_it_says(snapd, _):
    made = packaged(snapd.path, "dist.py", snapd.file("out").resolve())
    name = made.name.partition("-linux-")[0]
    assert name == f"snapd-board-{version.version()}"
    with tarfile.open(made) as tar:
        entries = tar.getmembers()
        files = {it.name.removeprefix(f"{name}/"): tar.extractfile(it).read() for it in entries}
    assert [it.name for it in entries] == sorted(it.name for it in entries) and len({it.mtime for it in entries}) == 1
    assert {(it.uname, it.gname, it.uid, it.gid) for it in entries} == {("root", "root", 0, 0)}
    assert {it.name: it.mode for it in entries if it.mode != 0o644} == {f"{name}/bin/snapd": 0o755}
    assert {"bin/snapd", "PROVED", "SHA256SUMS", *ELSEWHERE, *(f"lib/{it}" for it in LIBRARIES)} <= files.keys()
    assert {it.name: it.linkname for it in entries if it.issym()} == {f"{name}/lib/libsnapd.so": "libsnapd.so.0"}
    sums = dict(reversed(line.split("  ")) for line in files.pop("SHA256SUMS").decode().splitlines())
    assert sums == {it: hashlib.sha256(data).hexdigest() for it, data in files.items()}
    told = dict(line.split(": ", 1) for line in files["PROVED"].decode().splitlines())
    assert told["program"] == f"SHA-256 {sums['bin/snapd']}"
    assert told["commit"].split(",")[0] == ran("git", "-C", TOP, "rev-parse", "HEAD").strip()
    own = snapd("--version").output.decode().splitlines()[1].strip()
    assert told["built"] == own and told["proved"].startswith("no") == own.startswith("not proved;")
    assert told["proofs.lock"] == f"SHA-256 {hashlib.sha256((TOP / 'proofs.lock').read_bytes()).hexdigest()}"


def test_one_commit_makes_the_same_bytes_in_two_folders(snapd, _):
    """The second folder is a copy with other times and modes, and a short script stands for the program."""
    program = snapd.file("snapd").resolve()
    program.write_text("#!/bin/sh\necho snapd 0\n")
    program.chmod(0o755)
    top = copied(snapd, ".git", *(it for it in ran("git", "-C", TOP, "ls-files").splitlines() if (TOP / it).exists()))
    for it in (top / "docs").iterdir():
        it.chmod(0o600)
        os.utime(it, (1, 1))
    wanted("dpkg-deb")
    for script in ("dist.py", "deb.py"):
        first = packaged(program, script, snapd.file(f"first-{script}").resolve())
        second = packaged(program, script, snapd.file(f"second-{script}").resolve(), top)
        assert first.read_bytes() == second.read_bytes(), script


# Where the package may have files: none of these is one of the daemon's.
OF_THE_PACKAGE = re.compile(
    r"\./usr/(?:bin/snapd|include/snapd\w*\.h|(?:lib|share)/.*/(?:_?snapd(?:\.fish|\.1\.gz)?|snapd-board\S*))$"
    rf"|\./usr/lib/[\w-]+/(?:{'|'.join(map(re.escape, LIBRARIES))})(?: -> libsnapd\.so\.0)?$"
    r"|\./usr/share/doc/snapd-board/")


def test_a_package_has_what_it_says(snapd, _):
    dpkg = wanted("dpkg-deb")
    made = packaged(snapd.path, "deb.py", snapd.file("out").resolve())
    fields = dict(line.split(": ", 1) for line in ran(dpkg, "--field", made).splitlines() if not line.startswith(" "))
    assert (fields["Package"], fields["Version"]) == ("snapd-board", version.version())
    assert fields["Depends"].startswith("libc6 (>= 2.")
    root = snapd.file("root").resolve()
    ran(dpkg, "--raw-extract", made, root)
    scripts = {it.name: it.read_text() for it in (root / "DEBIAN").iterdir()}
    # It makes the user, and starts nothing.
    assert "systemd-sysusers snapd-board.conf" in scripts["postinst"]
    assert not re.search("start|enable|invoke", scripts["postinst"])
    # It removes no user and no folder.
    assert not re.search(r"\brm\b|userdel|deluser|purge", scripts["postinst"] + scripts["prerm"] + scripts["postrm"])
    lines = [line.split(None, 5) for line in ran(dpkg, "--contents", made).splitlines()]
    for mode, owner, _, _, _, path in lines:
        modes = ("drwxr-xr-x", "-rw-r--r--", "-rwxr-xr-x", "lrwxrwxrwx")
        assert owner == "root/root" and mode in modes, (mode, owner, path)
        assert mode[0] == "d" or OF_THE_PACKAGE.search(path), path
    assert [path for mode, *_, path in lines if mode == "-rwxr-xr-x"] == ["./usr/bin/snapd"]
    assert (root / "usr" / "bin" / "snapd").read_bytes() == pathlib.Path(snapd.path).read_bytes()
    (config,) = root.glob("usr/lib/*/pkgconfig/snapd.pc")
    libraries = config.parent.parent
    assert all((libraries / it).is_file() for it in LIBRARIES) and (libraries / "libsnapd.so").is_symlink()
    assert f"\nlibdir=${{prefix}}/lib/{libraries.name}\n" in config.read_text()
    assert scripts["triggers"] == "activate-noawait ldconfig\n"
    page, texts = (gzip.decompress((root / "usr" / it).read_bytes())
                   for it in ("share/man/man1/snapd.1.gz", f"{DOC}/packaging/NOTICES.gz"))
    assert page == (PACKAGING / "snapd.1").read_bytes() and b"Permission is hereby granted" in texts


def test_lintian_finds_no_error(snapd, _):
    wanted("dpkg-deb")
    lintian = wanted("lintian")
    made = packaged(snapd.path, "deb.py", snapd.file("out").resolve())
    words = [lintian, "--fail-on", "error,warning", str(made)]
    run = subprocess.run(words, capture_output=True, text=True, timeout=10 * PATIENCE)
    assert run.returncode == 0 and not re.search("^[EW]: ", run.stdout, re.M), run.stdout
