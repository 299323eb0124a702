"""One segment and its number, and waits for the numbers of some, whichever client makes them."""

import time
from typing import Dict, Mapping, Optional

from . import messages, questions
from .calls import Caller, OutOfTime
from .errors import WaitTimedOut
from .messages import Standing

# The first and the longest pause between two polls of a wait, in seconds.
FIRST_PAUSE, LONGEST_PAUSE = 0.001, 0.1


class Numbered:
    """A segment with the number that was stored, read or learned last. It is for one call at a time."""

    def __init__(self, caller: Caller, segment: int) -> None:
        (self.segment,) = messages.named([segment], "a client of one segment")
        self.number: Optional[int] = None
        self._caller = caller

    async def learned(self) -> int:
        """The number; the server's where there was none yet."""
        if self.number is None:
            found = await self._caller._answer(questions.standings({self.segment: 0}))
            self.number = found[self.segment].number
        return self.number

    async def put(self, value: bytes) -> int:
        """Stores the value as the next number. Where that fails the number stays."""
        number = await self.learned() + 1
        self.number = await self._caller._answer(questions.update(self.segment, number, value))
        return self.number

    async def get(self) -> bytes:
        """The value. The next put follows its number."""
        least = {self.segment: self.number or 0}
        entry = (await self._caller._answer(questions.scan_some([self.segment], least)))[self.segment]
        self.number = entry.number
        return entry.value


async def reached(caller: Caller, wanted: Mapping[int, int], timeout: float) -> Dict[int, int]:
    """The numbers of these segments once each has reached the wanted one or passed it.

    Between two polls it rests for a millisecond at first, then twice as long each time, and a tenth of a second at
    most; but for half of the remaining time if that is less, so that the last poll comes shortly before the end.
    """
    end, pause = time.monotonic() + timeout, FIRST_PAUSE
    seen: Dict[int, Standing] = {}
    while True:
        least = {segment: seen[segment].number if seen else 0 for segment in wanted}
        try:
            seen = await caller._look(least, end)
        except OutOfTime as error:
            raise caller._named(WaitTimedOut(timeout, wanted, seen), wanted) from error
        if all(standing.number >= wanted[segment] for segment, standing in seen.items()):
            return {segment: standing.number for segment, standing in seen.items()}
        left = end - time.monotonic()
        if left <= FIRST_PAUSE:
            raise caller._named(WaitTimedOut(timeout, wanted, seen), wanted)
        await caller._sleep(min(pause, left / 2))
        pause = min(2 * pause, LONGEST_PAUSE)
