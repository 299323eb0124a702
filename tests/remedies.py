"""The lines after the system's reason why a path can't be had, whose beginnings are in docs/FORMATS.md."""

import os

MISSING = "No such file or directory (os error 2)"
DENIED = "Permission denied (os error 13)"
READ_ONLY = "Read-only file system (os error 30)"


def no_file(file, place="--index I --count N"):
    return f"{file}: it isn't there: make it by snapd format {file} {place}"


def no_folder(folder):
    """The advice on a server's folder that doesn't exist."""
    return f"{folder}: it isn't there: make it by snapd init {folder} --count N"


def nowhere(folder):
    """Where a path's folder isn't there."""
    return f"{folder}: there is no such folder: make it by mkdir -p, or give another path"


def of_nothing(link):
    return f"{link}: it is a link to what isn't there: make that, or give another path"


def read_only(path):
    return f"{path}: its file system is mounted read-only: mount it to be written, or give a path on another one"


def owned(place, path, user=65_534):
    """Of the file or folder at this path, which the program calls so, to this user."""
    found = os.stat(path)
    if user in (0, found.st_uid):
        do = "give yourself the right by chmod, or look by lsattr and ls -Z for what else denies it"
    else:
        do = "run it as its owner, or let this user in by chmod or chown"
    return (
        f"{place}: user {found.st_uid} owns it, its mode is {found.st_mode & 0o7777:04o}, and you are user {user}: {do}"
    )


def failed(path, reason, *remedies):
    """Standard error of a command that the system kept out of a path."""
    return "".join(f"snapd: {line}\n" for line in (f"{path}: {reason}", *remedies))
