"""Runs the program over `recorder.c`, which records its calls on one file or makes one of them fail."""

from dataclasses import dataclass

from preload import library
from program import Program

@dataclass
class Write:
    at: int
    bytes: bytes


SYNC = "sync"


def run(snapd: Program, *words, fault=None, file="F", **more):
    """The run, and the calls on the file that succeeded: writes, lengths and syncs in order."""
    log = snapd.file("calls.log")
    log.unlink(missing_ok=True)
    env = {"LD_PRELOAD": library("recorder"), "RECORDER_FILE": file, "RECORDER_LOG": str(log)}
    if fault is not None:
        env["RECORDER_FAULT"] = fault
    done = snapd(*words, env=env, **more)
    lines = log.read_text().splitlines() if log.exists() else []
    return done, [_call(line.split()) for line in lines]


def _call(words):
    if words[0] == "write":
        return Write(int(words[1]), bytes.fromhex(words[2]))
    if words[0] == "length":
        return int(words[1])
    return SYNC
