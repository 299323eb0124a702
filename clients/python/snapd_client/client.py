"""The client whose calls block."""

import math
import queue
import socket
import threading
import time
from types import TracebackType
from typing import Any, Callable, Coroutine, Dict, Iterable, Mapping, Optional, Tuple, Type, TypeVar, Union, overload

from . import addresses, messages, questions
from .addresses import Address, OfHost, Place, Places
from .calls import PIECE, Caller, OutOfTime, completed, left_until
from .messages import Bytes, Entry, Standing
from .questions import Question
from .segments import Numbered, reached

Answer = TypeVar("Answer")


class Client(Caller):
    """Asks a snapd server, one request at a time.

    The first call connects. A call whose connection fails, ends or is silent for `timeout` seconds is tried again on a
    new one, up to `tries` connections in all, with a pause of `pause` seconds in between that doubles each time. It
    sends the same bytes each time: an update under one number is stored once, however often it is sent. The timeout is
    of a whole try, with the look-up of a name and all of its addresses, which share what is left of it.

    Calls may come from several threads; they wait for each other. A process that is forked off makes a connection of
    its own at its first call, also where it was forked during another thread's call.
    """

    def __init__(self, address: Address, *, timeout: float = 5.0, tries: int = 3, pause: float = 0.1) -> None:
        """`address` is "HOST:PORT", a pair of both, or "unix:PATH" of a Unix socket. Nothing is sent yet. `ValueError`
        where a word is out of range."""
        self._lock = threading.RLock()
        self._is_taken = False
        super().__init__(address, timeout, tries, pause)

    def update(self, segment: int, number: int, value: Bytes) -> int:
        """Stores `value` as this number of a segment, and returns the number once it is on the server's disk.

        The number is the segment's plus one. The segment's own number with its own value is answered again, so an
        update may be repeated. Every `Refused` says what to do. Before a byte is sent comes `TypeError` where the value
        isn't bytes-like or a number isn't an integer, and `ValueError` where no message can say it.
        """
        return self._ask(questions.update(segment, number, value))

    @overload
    def scan(self) -> Tuple[Entry, ...]: ...

    @overload
    def scan(self, segments: Iterable[int]) -> Dict[int, Entry]: ...

    def scan(self, segments: Optional[Iterable[int]] = None) -> Union[Tuple[Entry, ...], Dict[int, Entry]]:
        """Number and value of every segment, all of one moment between the call and its return.

        With `segments`, as in `scan(segments=[0, 3])`, of these alone: a dict of the entries by segment, in ascending
        order. One that is named twice counts once. `NoSegment` where the server hasn't one of them. Before a byte is
        sent comes `TypeError` where a segment isn't an integer, and `ValueError` where it isn't 0 to 15 or none is
        named.
        """
        if segments is None:
            return self._ask(questions.scan())
        return self._ask(questions.scan_some(segments))

    def status(self) -> Tuple[Standing, ...]:
        """Number and fence of every segment. It isn't a snapshot: each entry is of a moment of its own."""
        return self._ask(questions.status())

    def segment(self, segment: int) -> "Segment":
        """One segment, which knows its number. Nothing is sent yet. `TypeError` where it isn't an integer, `ValueError`
        where it isn't 0 to 15."""
        return Segment(self, segment)

    def wait(self, numbers: Mapping[int, int], timeout: float) -> Dict[int, int]:
        """Waits until each segment's number has reached the one that is given for it, or passed it: `wait({0: 17},
        timeout=30)`.

        It returns the numbers that it saw, by segment. It asks for the status, rests for 1 ms, asks again, and rests
        twice as long each time, up to 100 ms; near the end for half of the remaining time. Other threads make their
        calls in between. The clock is monotonic.

        `WaitTimedOut` after `timeout` seconds (`math.inf` is for ever), which says which segments lag and by how much.
        `NoSegment` at once if the server hasn't one of them, `BadReply` if a number falls, and `NotAnswered` if a poll
        has no answer after `tries` tries. Before a byte is sent it raises `TypeError` and `ValueError`, as a scan does,
        and `ValueError` if the timeout isn't above 0.
        """
        wanted = messages.wanted(numbers)
        if not timeout > 0:
            raise ValueError("the timeout of a wait is above 0")
        return completed(reached(self, wanted, timeout))

    def close(self) -> None:
        """Ends the connection, once the call has ended that another thread makes. A later call makes a new one, and so
        does the one that this thread makes, where a signal's handler closes."""
        with self._lock:
            self._drop()

    def __enter__(self) -> "Client":
        return self

    def __exit__(
        self,
        kind: Optional[Type[BaseException]],
        error: Optional[BaseException],
        trace: Optional[TracebackType],
    ) -> None:
        self.close()

    # ---- turns ----

    def _in_turn(self, call: Callable[[], Coroutine[Any, Any, Answer]], until: float = math.inf) -> Answer:
        """Makes a call once no other thread is in one. `OutOfTime` where that isn't before `until`, `RuntimeError`
        where this thread is in one itself: in a signal's handler, whose call would take the reply to that one."""
        left = min(max(until - time.monotonic(), 0), threading.TIMEOUT_MAX)
        if not self._lock.acquire(timeout=left):
            raise OutOfTime(f"{self._address}: another call was under way")
        try:
            if self._is_taken:
                raise RuntimeError("a signal's handler came in a call of this client")
            self._is_taken = True
            try:
                return completed(call())
            finally:
                self._is_taken = False
        finally:
            self._lock.release()

    def _ask(self, question: Question[Answer], until: float = math.inf) -> Answer:
        return self._in_turn(lambda: self._answer(question, until), until)

    def _begin_anew(self) -> None:
        """A thread that isn't here may have been in a call."""
        self._lock, self._is_taken = threading.RLock(), False
        super()._begin_anew()

    # ---- waits ----

    async def _look(self, least: Mapping[int, int], end: float) -> Dict[int, Standing]:
        return self._ask(questions.standings(least), end)

    async def _sleep(self, seconds: float) -> None:
        time.sleep(seconds)

    async def _look_up(self, address: OfHost, end: float) -> Places:
        told: "queue.SimpleQueue[Union[Places, Exception]]" = queue.SimpleQueue()
        addresses.look_up(address, told.put)
        try:
            found = told.get(timeout=left_until(end))
        except queue.Empty:
            raise socket.timeout("timed out") from None
        if isinstance(found, Exception):
            raise found
        return found

    async def _join(self, connection: socket.socket, place: Place, end: float) -> None:
        connection.settimeout(left_until(end))
        connection.connect(place[1])

    async def _send(self, connection: socket.socket, data: bytes, end: float) -> None:
        connection.settimeout(left_until(end))
        connection.sendall(data)

    async def _receive(self, connection: socket.socket, end: float) -> bytes:
        connection.settimeout(left_until(end))
        return connection.recv(PIECE)


class Segment:
    """One segment of a client, with the number of the value that it stored or read last.

    The first call learns the number from the server. A `put` stores the value after that one and no other, so it is
    refused if another job has stored one in between; another object of the same segment is such a job. Calls may come
    from several threads; they wait for each other.
    """

    def __init__(self, client: Client, segment: int) -> None:
        """Use `Client.segment`."""
        self._client = client
        self._numbered = Numbered(client, segment)

    def __repr__(self) -> str:
        return f"{self._client!r}.segment({self._numbered.segment})"

    @property
    def number(self) -> int:
        """The number of the value that was stored or read last. The first use asks the server, by a status: `NoSegment`
        where it hasn't this segment."""
        known = self._numbered.number
        return self._client._in_turn(self._numbered.learned) if known is None else known

    def put(self, value: Bytes) -> int:
        """Stores `value` as the next number, and returns that once it is on the server's disk.

        A `Refused` is never tried again: nothing was stored, the number stays, and the next `put` takes the same one.
        After `Conflict` or `OutOfStep` another job has written this segment, and each `put` is refused alike until a
        `get` has read the current value; the next one is stored after that.

        After `NotAnswered` and `BadReply` the value may have been stored; the number stays. `put` it again and it is
        stored once. Another value instead is refused as `Conflict` if the first one was stored; a `get` shows which.

        Before a byte is sent comes `TypeError` where the value isn't bytes-like,
        and `ValueError` where it has above 65,990 bytes.
        """
        held = messages.value_of(value)
        return self._client._in_turn(lambda: self._numbered.put(held))

    def get(self) -> bytes:
        """The value. `number` is its number then, also where another job stored it.

        `NoSegment` where the server hasn't this segment. `BadReply` where its number is below the one that was known;
        that stays.
        """
        return self._client._in_turn(self._numbered.get)
