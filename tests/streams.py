"""Standard streams that fail, by `streams.c`."""

from preload import library

# More bytes than any of them moves.
ALL = 1 << 30
WHY = "Input/output error (os error 5)"


def failing(stream, room=ALL, step=ALL):
    """The environment of a run whose standard input, output or error (stream 0, 1 or 2) moves `room` bytes and then
    fails, and moves no more than `step` of them at once."""
    return {"LD_PRELOAD": library("streams"), "STREAMS_FAIL": f"{stream} {room} {step}"}
