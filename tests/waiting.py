"""Waits that end with what they wait for, and not by the clock: so a test means the same on a fast and quiet machine
and on a slow and full one. The clock only shows that something has stopped for good."""

import fcntl
import struct
import termios
import time

# How long something may make no progress, in seconds, before it counts as stopped for good.
PATIENCE = 60
# More steps than a job does while a test runs.
NO_END = 10**9


def wait_until(has_come, what="it"):
    """Waits until something has come true."""
    until = time.monotonic() + PATIENCE
    while not has_come():
        assert time.monotonic() < until, f"{what} hasn't come"
        time.sleep(0.002)


def comes_to(wanted, value):
    """Waits until a value is the wanted one."""
    until = time.monotonic() + PATIENCE
    while (found := value()) != wanted:
        assert time.monotonic() < until, (found, wanted)
        time.sleep(0.002)


def gets_on(value, steps, is_over=lambda: False):
    """Waits until a number has grown by `steps`, as long as it grows at all. False if `is_over()` came before."""
    seen = value()
    wanted, until = seen + steps, time.monotonic() + PATIENCE
    while seen < wanted:
        if is_over():
            return False
        assert time.monotonic() < until, f"it stands still at {seen}"
        # A check may cost a connection, and the system has only so many.
        time.sleep(0.005)
        seen, before = value(), seen
        if seen != before:
            until = time.monotonic() + PATIENCE
    return True


def moment(rng, longest=0.02):
    """Rests a moment, so that what follows comes at any time. No test may rely on its length."""
    time.sleep(rng.uniform(0, longest))


def is_read(pipe):
    """Waits until all that was written into a pipe has been read."""
    count = lambda: struct.unpack("i", fcntl.ioctl(pipe, termios.FIONREAD, bytes(4)))[0]  # noqa: E731
    comes_to(0, count)
