"""Why a call gives no answer. Every exception of this package is a `SnapdError`."""

from typing import Dict, Mapping, Optional, Tuple, Type


class SnapdError(Exception):
    """A call of the client gave no answer.

    `address` is the server's, and `segment` the one that was asked for: `None` where there were several, or all.
    """

    address: Optional[str] = None
    segment: Optional[int] = None

    def __repr__(self) -> str:
        named = {"address": self.address, "segment": self.segment}
        words = [*map(repr, self.args), *(f"{name}={value!r}" for name, value in named.items() if value is not None)]
        return f"{type(self).__name__}({', '.join(words)})"


class NotAnswered(SnapdError):
    """No try was answered: no connection could be made, or it failed or ended before the reply.

    An update may have been stored all the same. Send it again with the same number and value: it is stored once.
    `__cause__` is what the last try met.
    """


class TimedOut(NotAnswered):
    """The last try had no whole reply within the client's timeout."""


class WaitTimedOut(SnapdError):
    """Not every segment came to its number within the time of a `wait`.

    `numbers` are the last ones seen, by segment, and `lagging` says by how much each segment lags that does. Both are
    empty if no poll was answered in time. `__cause__` is the reason why the last poll had no answer, if it had none.
    """

    def __init__(self, timeout: float, wanted: Mapping[int, int], seen: Mapping[int, Tuple[int, bool]]) -> None:
        super().__init__(timeout, wanted, seen)
        self.numbers: Dict[int, int] = {segment: number for segment, (number, _) in seen.items()}
        self.lagging: Dict[int, int] = {
            segment: wanted[segment] - number for segment, number in self.numbers.items() if number < wanted[segment]
        }
        lags = (
            f"segment {segment}{', which is fenced,' if seen[segment][1] else ''} lags by {lag}: "
            f"it is at number {self.numbers[segment]} of {wanted[segment]}"
            for segment, lag in self.lagging.items()
        )
        self._text = f"after {timeout} s {'; '.join(lags) or 'no look was answered'}"

    def __str__(self) -> str:
        return self._text


class BadReply(SnapdError):
    """What came isn't an answer to the request, or says that another number was stored than was sent, or has other
    segments than were named, or has a segment at a smaller number than before. It isn't tried again.

    Another program than snapd may be at the other end. An update may have been stored all the same: check the address,
    and scan.
    """


class Refused(SnapdError):
    """The server refused the request. Nothing was stored, save where a subclass says otherwise.

    `number` and `name` are the refusal's; `detail` is what a subclass says, else 0.
    """

    number = 0
    name = "Refused"
    meaning = "refused"

    def __init__(self, detail: int = 0) -> None:
        super().__init__(detail)
        self.detail = detail

    def __str__(self) -> str:
        return f"refused {self.number} {self.name} {self.detail}: {self.meaning}"


class Malformed(Refused):
    """What was sent isn't a request."""

    number = 1
    name = "Malformed"
    meaning = "what was sent isn't a request"


class NoSegment(Refused):
    """The server has no such segment. `detail` is how many it has."""

    number = 2
    name = "NoSegment"
    meaning = "the server has no such segment, the last number is how many it has"


class TooLong(Refused):
    """The value has more than 4,080 bytes. `detail` is its length."""

    number = 3
    name = "TooLong"
    meaning = "a value has at most 4,080 bytes, the last number is what this one has"


class Conflict(Refused):
    """The segment has this number with another value. `detail` is its number."""

    number = 4
    name = "Conflict"
    meaning = "the segment has this number with another value"


class OutOfStep(Refused):
    """The number is neither the segment's nor the next one. `detail` is the segment's number."""

    number = 5
    name = "OutOfStep"
    meaning = "the last number is the segment's: an update takes the next one"


class Fenced(Refused):
    """A store of this segment failed before: it takes no update until the server is started again on a sound disk.

    `detail` is the segment's number.
    """

    number = 6
    name = "Fenced"
    meaning = "a store of this segment failed, so it takes no update until the server is started again"


class Full(Refused):
    """The room for updates is used up. `detail` is the segment's number. Servers of today never answer it."""

    number = 7
    name = "Full"
    meaning = "the room for updates is used up"


class NoMemory(Refused):
    """The server found no memory for the answer. A scan or a status may be asked for again."""

    number = 8
    name = "NoMemory"
    meaning = "the server has no memory for this"


class Exhausted(Refused):
    """The segment's number is the highest one there is, 2^63 - 1. `detail` is this number."""

    number = 9
    name = "Exhausted"
    meaning = "the segment has the highest number that there is"


class Damaged(Refused):
    """A file's slots give no answer. No reply to a request of this client has it."""

    number = 10
    name = "Damaged"
    meaning = "a file's slots give no answer"


class Unformatted(Refused):
    """A file isn't formatted. No reply to a request of this client has it."""

    number = 11
    name = "Unformatted"
    meaning = "a file isn't formatted"


class AlreadyFormatted(Refused):
    """A file is formatted already. No reply to a request of this client has it."""

    number = 12
    name = "AlreadyFormatted"
    meaning = "a file is formatted already"


class DeviceFailed(Refused):
    """The disk failed while this update was stored. `detail` is the segment's number, as before.

    No scan has shown the update. After the next start of the server its value may be there or not: send it again then,
    with the same number and value, and it is stored once.
    """

    number = 13
    name = "DeviceFailed"
    meaning = "the disk failed: look at it, start the server again, and send this update again"


class WrongFile(Refused):
    """A file isn't the segment that it should be. No reply to a request of this client has it."""

    number = 14
    name = "WrongFile"
    meaning = "a file isn't the segment that it should be"


class TooLarge(Refused):
    """A frame has more than 66,000 bytes. `detail` is 66,000."""

    number = 15
    name = "TooLarge"
    meaning = "a frame has at most 66,000 bytes"


class NotNow(Refused):
    """An event of a world that may not come now. No reply to a request of this client has it."""

    number = 16
    name = "NotNow"
    meaning = "it may not come now"


class Worn(Refused):
    """The server has made all the looks of this run. Start it again. `detail` is the segment's number of an update."""

    number = 17
    name = "Worn"
    meaning = "the server has made all looks of this run: start it again"


BY_NUMBER: Dict[int, Type[Refused]] = {
    refusal.number: refusal
    for refusal in (
        Malformed,
        NoSegment,
        TooLong,
        Conflict,
        OutOfStep,
        Fenced,
        Full,
        NoMemory,
        Exhausted,
        Damaged,
        Unformatted,
        AlreadyFormatted,
        DeviceFailed,
        WrongFile,
        TooLarge,
        NotNow,
        Worn,
    )
}
