"""A client of the snapd server: small values that survive a crash.

    from snapd_client import Client

    with Client("127.0.0.1:7070") as client:
        mine = client.scan()[0]                                # number and value of segment 0
        client.update(0, mine.number + 1, b"step 17")          # returns once it is on the disk

`client.segment(0)` keeps the number itself, and `snapd_client.aio` has the same client for asyncio.
"""

from .client import Client, Segment
from .errors import (
    AlreadyFormatted,
    BadReply,
    Conflict,
    Damaged,
    DeviceFailed,
    Exhausted,
    Fenced,
    Full,
    Malformed,
    NoMemory,
    NoSegment,
    NotAnswered,
    NotNow,
    OutOfStep,
    Refused,
    SnapdError,
    TimedOut,
    TooLarge,
    TooLong,
    Unformatted,
    WaitTimedOut,
    Worn,
    WrongFile,
)
from .messages import Entry, Standing

__version__ = "0.2.0"

__all__ = [
    "AlreadyFormatted",
    "BadReply",
    "Client",
    "Conflict",
    "Damaged",
    "DeviceFailed",
    "Entry",
    "Exhausted",
    "Fenced",
    "Full",
    "Malformed",
    "NoMemory",
    "NoSegment",
    "NotAnswered",
    "NotNow",
    "OutOfStep",
    "Refused",
    "Segment",
    "SnapdError",
    "Standing",
    "TimedOut",
    "TooLarge",
    "TooLong",
    "Unformatted",
    "WaitTimedOut",
    "Worn",
    "WrongFile",
]
