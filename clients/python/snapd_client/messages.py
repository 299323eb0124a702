"""Requests to bytes, and bytes to replies: docs/FORMATS.md, "Frames and messages"."""

import operator
import struct
from typing import Dict, Iterable, List, Mapping, NamedTuple, Tuple, Union

from .errors import BY_NUMBER, BadReply, Refused

MAX_PAYLOAD = 66_000
MAX_UPDATE_VALUE = MAX_PAYLOAD - 10
MAX_VALUE = 4_080
MAX_SEGMENTS = 16
NUMBERS = 1 << 63

UPDATE, SCAN, STATUS, SCAN_SOME = 0x01, 0x02, 0x03, 0x04
STORED, SNAPSHOT, STANDINGS, PART, REFUSED = 0x81, 0x82, 0x83, 0x84, 0xE0


class Entry(NamedTuple):
    """One segment in a snapshot, or in a scan of some segments."""

    number: int
    value: bytes


class Standing(NamedTuple):
    """The number and fence of one segment, by a status."""

    number: int
    fenced: bool


class Stored(NamedTuple):
    number: int


class Snapshot(NamedTuple):
    entries: Tuple[Entry, ...]


class Standings(NamedTuple):
    standings: Tuple[Standing, ...]


class Part(NamedTuple):
    entries: Dict[int, Entry]


Reply = Union[Stored, Snapshot, Standings, Part, Refused]
Bytes = Union[bytes, bytearray, memoryview]


def frame(payload: bytes) -> bytes:
    """The frame of a payload of at most 66,000 bytes."""
    return struct.pack(">I", len(payload)) + payload


def value_of(value: Bytes) -> bytes:
    """The bytes of a value. `bytes` itself would make zeros of a number, and take a list. `TypeError` where it isn't
    bytes-like, `ValueError` where no frame can carry it."""
    try:
        held = memoryview(value).tobytes()
    except TypeError:
        raise TypeError(f"a value is bytes-like, not {type(value).__name__}") from None
    if len(held) > MAX_UPDATE_VALUE:
        raise ValueError(f"an update carries at most {MAX_UPDATE_VALUE} bytes, not {len(held)}")
    return held


def update(segment: int, number: int, value: Bytes) -> bytes:
    """The frame that asks to store a value. `TypeError` where a word is of another kind,
    `ValueError` where no frame can say it."""
    segment, number, value = operator.index(segment), operator.index(number), value_of(value)
    if not 0 <= segment <= 255:
        raise ValueError(f"a segment is 0 to 255, not {segment}")
    if not 0 <= number < 1 << 64:
        raise ValueError(f"a number is 0 to 2^64 - 1, not {number}")
    return frame(struct.pack(">BBQ", UPDATE, segment, number) + value)


def scan() -> bytes:
    """The frame that asks for a snapshot."""
    return frame(bytes([SCAN]))


def named(segments: Iterable[int], by: str = "a scan of some segments") -> Tuple[int, ...]:
    """The segments that a call of this kind names, in ascending order; one that comes twice counts once. `TypeError`
    where one isn't an integer, `ValueError` where it isn't 0 to 15, or there is none."""
    names = sorted({operator.index(segment) for segment in segments})
    if not names:
        raise ValueError(f"{by} names one or more")
    for segment in names:
        if not 0 <= segment < MAX_SEGMENTS:
            raise ValueError(f"{by} names 0 to {MAX_SEGMENTS - 1}, not {segment}")
    return tuple(names)


def wanted(numbers: Mapping[int, int]) -> Dict[int, int]:
    """The numbers that are waited for, in ascending order of their segments, which are as `named` takes them.
    `TypeError` where one isn't an integer, `ValueError` where no segment can have it."""
    named(numbers, "a wait")
    found = {operator.index(segment): operator.index(number) for segment, number in numbers.items()}
    for number in found.values():
        if not 0 <= number < NUMBERS:
            raise ValueError(f"a wait is for a number of 0 to 2^63 - 1, not {number}")
    return dict(sorted(found.items()))


def scan_some(segments: Iterable[int]) -> bytes:
    """The frame that asks for these segments alone. It takes and refuses what `named` does."""
    return frame(struct.pack(">BH", SCAN_SOME, sum(1 << segment for segment in named(segments))))


def status() -> bytes:
    """The frame of a status request."""
    return frame(bytes([STATUS]))


class _Rest:
    """The bytes of a payload that aren't read yet."""

    def __init__(self, payload: bytes) -> None:
        self.payload = payload
        self.at = 0

    def take(self, count: int) -> bytes:
        piece = self.payload[self.at : self.at + count]
        if len(piece) < count:
            raise BadReply("the reply is cut off")
        self.at += count
        return piece

    def read(self, count: int) -> int:
        return int.from_bytes(self.take(count), "big")

    def number(self) -> int:
        number = self.read(8)
        if number >= NUMBERS:
            raise BadReply("a number isn't below 2^63")
        return number

    def count(self) -> int:
        count = self.read(1)
        if not 1 <= count <= MAX_SEGMENTS:
            raise BadReply("a count isn't 1 to 16")
        return count


def _entry(rest: _Rest) -> Entry:
    number = rest.number()
    length = rest.read(4)
    if length > MAX_VALUE:
        raise BadReply("a value has more than 4,080 bytes")
    return Entry(number, rest.take(length))


def _part(rest: _Rest) -> Part:
    entries: Dict[int, Entry] = {}
    least = 0
    for _ in range(rest.count()):
        segment = rest.read(1)
        if not least <= segment < MAX_SEGMENTS:
            raise BadReply("the segments aren't 0 to 15 in ascending order")
        entries[segment] = _entry(rest)
        least = segment + 1
    return Part(entries)


def _standing(rest: _Rest) -> Standing:
    number = rest.number()
    fenced = rest.read(1)
    if fenced > 1:
        raise BadReply("a fence is neither 0 nor 1")
    return Standing(number, fenced == 1)


def _refusal(rest: _Rest) -> Refused:
    kind = BY_NUMBER.get(rest.read(1))
    if kind is None:
        raise BadReply("it refuses by no known number")
    return kind(rest.read(8))


def _message(rest: _Rest) -> Reply:
    tag = rest.read(1)
    if tag == STORED:
        return Stored(rest.number())
    if tag == SNAPSHOT:
        return Snapshot(tuple(_entry(rest) for _ in range(rest.count())))
    if tag == STANDINGS:
        return Standings(tuple(_standing(rest) for _ in range(rest.count())))
    if tag == PART:
        return _part(rest)
    if tag == REFUSED:
        return _refusal(rest)
    raise BadReply("it begins like no reply")


def reply(payload: bytes) -> Reply:
    """The reply of a payload; `BadReply` where it is none."""
    rest = _Rest(payload)
    message = _message(rest)
    if rest.at != len(payload):
        raise BadReply("bytes stand behind the reply")
    return message


class Frames:
    """Cuts the bytes of a connection into payloads."""

    def __init__(self) -> None:
        self.held = bytearray()

    def push(self, piece: bytes) -> None:
        self.held += piece

    def next(self) -> Union[bytes, None]:
        """The first whole payload, taken off; `None` where none is whole."""
        if len(self.held) < 4:
            return None
        length = int.from_bytes(self.held[:4], "big")
        if length > MAX_PAYLOAD:
            raise BadReply("a frame's length is above 66,000")
        if len(self.held) < 4 + length:
            return None
        payload = bytes(self.held[4 : 4 + length])
        del self.held[: 4 + length]
        return payload


__all__: List[str] = [
    "Bytes",
    "Entry",
    "Standing",
    "Frames",
    "Reply",
    "frame",
    "named",
    "reply",
    "scan",
    "scan_some",
    "status",
    "update",
    "value_of",
    "wanted",
]
