"""What one asks, and what answers it: a request's frame, and how its reply is read."""

from typing import Callable, Dict, Generic, Iterable, Mapping, Tuple, Type, TypeVar, Union

from . import messages
from .errors import BadReply, NoSegment, Refused
from .messages import Bytes, Entry, Part, Reply, Snapshot, Standing, Standings, Stored

Answer = TypeVar("Answer", covariant=True)
Wanted = TypeVar("Wanted", Stored, Snapshot, Standings, Part)

NONE_KNOWN: Mapping[int, int] = {}


class Question(Generic[Answer]):
    """A request's frame, with what its reply comes to, and the segments that it is of, where it names any."""

    def __init__(
        self, frame: bytes, read: Callable[[Reply], Union[Answer, Refused]], segments: Iterable[int] = ()
    ) -> None:
        self.frame = frame
        self._read = read
        self.segments = tuple(segments)

    def answer(self, payload: bytes) -> Union[Answer, Refused]:
        """What the payload of a reply answers, or by what it refuses.
        `BadReply` where it is no reply to this question."""
        message = messages.reply(payload)
        return message if isinstance(message, Refused) else self._read(message)


def _is(kind: Type[Wanted], message: Reply) -> Wanted:
    if not isinstance(message, kind):
        raise BadReply("the reply answers another request")
    return message


def _never_falls(numbers: Mapping[int, int], least: Mapping[int, int]) -> None:
    """A number that is smaller than before is of another server, or of an older file."""
    for segment, number in numbers.items():
        if number < least.get(segment, 0):
            raise BadReply(f"the reply has segment {segment} at number {number}, and it was at {least[segment]} before")


def update(segment: int, number: int, value: Bytes) -> Question[int]:
    """It answers this number."""

    def read(message: Reply) -> int:
        stored = _is(Stored, message).number
        if stored != number:
            raise BadReply(f"the reply says that number {stored} is stored, and asked was {number}")
        return stored

    return Question(messages.update(segment, number, value), read, [segment])


def scan() -> Question[Tuple[Entry, ...]]:
    """It answers the entries of all segments."""
    return Question(messages.scan(), lambda message: _is(Snapshot, message).entries)


def scan_some(segments: Iterable[int], least: Mapping[int, int] = NONE_KNOWN) -> Question[Dict[int, Entry]]:
    """It answers the entries of these segments, none of which has a number below the least one that is given for it."""
    names = messages.named(segments)

    def read(message: Reply) -> Dict[int, Entry]:
        entries = _is(Part, message).entries
        if tuple(entries) != names:
            raise BadReply(f"the reply is of the segments {tuple(entries)}, and asked was {names}")
        _never_falls({segment: entry.number for segment, entry in entries.items()}, least)
        return entries

    return Question(messages.scan_some(names), read, names)


def status() -> Question[Tuple[Standing, ...]]:
    """Its answer is the number and fence of each segment."""
    return Question(messages.status(), lambda message: _is(Standings, message).standings)


def standings(least: Mapping[int, int]) -> Question[Dict[int, Standing]]:
    """Its answer is the number and fence of each of these segments, with the number that is given for it or above. It
    asks for a status, which names no segment; if the server hasn't one of them, the answer is the refusal of a request
    that names it."""

    def read(message: Reply) -> Union[Dict[int, Standing], Refused]:
        found = _is(Standings, message).standings
        if max(least) >= len(found):
            return NoSegment(len(found))
        named = {segment: found[segment] for segment in sorted(least)}
        _never_falls({segment: standing.number for segment, standing in named.items()}, least)
        return named

    return Question(messages.status(), read, least)
