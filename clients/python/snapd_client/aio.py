"""The client for asyncio. It has the names of the other one, and what they say there holds here; each call is awaited.

    from snapd_client.aio import Client

    async with Client("127.0.0.1:7070") as client:
        mine = client.segment(0)
        await mine.put(b"step 17")
        everybody = await client.scan()
"""

import asyncio
import collections
import contextlib
import math
import os
import socket
from types import TracebackType
from typing import Any, Callable, Coroutine, Deque, Dict, Iterable, Mapping, Optional, Tuple, Type, TypeVar, Union
from typing import overload

from . import addresses, messages, questions
from .addresses import Address, OfHost, Place, Places
from .calls import PIECE, Caller, OutOfTime, left_until
from .messages import Bytes, Entry, Standing
from .questions import Question
from .segments import Numbered, reached

Answer = TypeVar("Answer")

__all__ = ["Client", "Segment"]


def _expire(waited: "asyncio.Future[Any]") -> None:
    if not waited.done():
        waited.set_exception(socket.timeout("timed out"))


def _arrive(waited: "asyncio.Future[None]") -> None:
    if not waited.done():
        waited.set_result(None)


async def _within(waited: "asyncio.Future[Answer]", end: float) -> Answer:
    """What a future gives. `socket.timeout` where it has given nothing by `end`."""
    if end == math.inf:
        return await waited
    timer = asyncio.get_running_loop().call_later(left_until(end), _expire, waited)
    try:
        return await waited
    finally:
        timer.cancel()
        if waited.done() and not waited.cancelled():
            # If the task is cancelled as the time runs out nothing else reads it, and the loop would complain.
            waited.exception()


class _Turns:
    """Lets in one task at a time, in the order in which they came.
    It belongs to a loop only while one of its tasks is in."""

    def __init__(self) -> None:
        self._is_taken = False
        self._loop: Optional[asyncio.AbstractEventLoop] = None
        self._waiting: "Deque[asyncio.Future[None]]" = collections.deque()

    async def take(self, until: float) -> None:
        loop = asyncio.get_running_loop()
        if not self._is_taken:
            self._is_taken, self._loop = True, loop
            return
        if loop is not self._loop:
            raise RuntimeError("a task of another loop is in a call of this client")
        turn: "asyncio.Future[None]" = loop.create_future()
        self._waiting.append(turn)
        try:
            await _within(turn, until)
        except BaseException:
            if turn in self._waiting:
                self._waiting.remove(turn)
            elif not turn.cancelled() and turn.exception() is None:
                # The turn came and the task was cancelled in the same moment.
                self.give()
            raise

    def give(self) -> None:
        """Gives the turn to the next task that waits and hasn't given up."""
        while self._waiting:
            turn = self._waiting.popleft()
            if not turn.done():
                turn.set_result(None)
                return
        self._is_taken = False


class Client(Caller):
    """Asks a snapd server, one request at a time, as `snapd_client.Client` does.

    Calls may come from several tasks of one loop: each waits for its turn, in the order in which they came, and its
    timeout begins with its turn. A task that is cancelled while it waits for its turn doesn't affect the call that is
    under way. One that is cancelled in its own call ends the connection, so that no other task gets its reply, and the
    next call makes a new one; an update may have been stored all the same.

    Loops after one another may use one client, as `asyncio.run` makes them; a call while one of another loop is under
    way is a `RuntimeError`. The loop has `add_reader`, as all have but the one of Windows that is called proactor.
    """

    def __init__(self, address: Address, *, timeout: float = 5.0, tries: int = 3, pause: float = 0.1) -> None:
        """As of `snapd_client.Client`. It needs no loop yet."""
        self._turns = _Turns()
        super().__init__(address, timeout, tries, pause)

    async def update(self, segment: int, number: int, value: Bytes) -> int:
        """Stores `value` as this number of a segment, and returns the number once it is on the server's disk."""
        return await self._ask(questions.update(segment, number, value))

    @overload
    async def scan(self) -> Tuple[Entry, ...]: ...

    @overload
    async def scan(self, segments: Iterable[int]) -> Dict[int, Entry]: ...

    async def scan(self, segments: Optional[Iterable[int]] = None) -> Union[Tuple[Entry, ...], Dict[int, Entry]]:
        """Number and value of every segment, or of these alone, all of one moment between the call and its return."""
        if segments is None:
            return await self._ask(questions.scan())
        return await self._ask(questions.scan_some(segments))

    async def status(self) -> Tuple[Standing, ...]:
        """Number and fence of every segment, each of a moment of its own."""
        return await self._ask(questions.status())

    def segment(self, segment: int) -> "Segment":
        """One segment, which knows its number. Nothing is sent yet, so it isn't awaited."""
        return Segment(self, segment)

    async def wait(self, numbers: Mapping[int, int], timeout: float) -> Dict[int, int]:
        """Waits until each segment's number has reached the one that is given for it, or passed it, and returns the
        numbers that it saw. Other tasks make their calls between its polls."""
        wanted = messages.wanted(numbers)
        if not timeout > 0:
            raise ValueError("the timeout of a wait is above 0")
        return await reached(self, wanted, timeout)

    async def close(self) -> None:
        """Ends the connection, once the calls before it have ended. A later call makes a new one."""
        await self._turns.take(math.inf)
        self._drop()
        self._turns.give()

    async def __aenter__(self) -> "Client":
        return self

    async def __aexit__(
        self,
        kind: Optional[Type[BaseException]],
        error: Optional[BaseException],
        trace: Optional[TracebackType],
    ) -> None:
        await self.close()

    # ---- turns ----

    async def _in_turn(self, call: Callable[[], Coroutine[Any, Any, Answer]], until: float = math.inf) -> Answer:
        """Makes a call once no other task is in one. `OutOfTime` where that isn't before `until`."""
        try:
            await self._turns.take(until)
        except socket.timeout:
            raise OutOfTime(f"{self._address}: another call was under way") from None
        try:
            return await call()
        finally:
            self._turns.give()

    async def _ask(self, question: Question[Answer], until: float = math.inf) -> Answer:
        return await self._in_turn(lambda: self._answer(question, until), until)

    def _begin_anew(self) -> None:
        """A task that isn't here may have been in a call."""
        self._turns = _Turns()
        super()._begin_anew()

    # ---- waits ----

    async def _look(self, least: Mapping[int, int], end: float) -> Dict[int, Standing]:
        return await self._ask(questions.standings(least), end)

    async def _sleep(self, seconds: float) -> None:
        await asyncio.sleep(seconds)

    async def _look_up(self, address: OfHost, end: float) -> Places:
        loop = asyncio.get_running_loop()
        told: "asyncio.Future[Union[Places, Exception]]" = loop.create_future()

        def tell(found: Union[Places, Exception]) -> None:
            if not told.done():
                told.set_result(found)

        def hand_over(found: Union[Places, Exception]) -> None:
            # A loop that has ended in the meantime takes nothing, and has no task that waits.
            with contextlib.suppress(RuntimeError):
                loop.call_soon_threadsafe(tell, found)

        addresses.look_up(address, hand_over)
        places = await _within(told, end)
        if isinstance(places, Exception):
            raise places
        return places

    async def _is_ready(self, connection: socket.socket, is_to_write: bool, end: float) -> None:
        """Waits until the socket can be read or written. The loop has forgotten it when this ends, however it ends."""
        loop, descriptor = asyncio.get_running_loop(), connection.fileno()
        ready: "asyncio.Future[None]" = loop.create_future()
        if is_to_write:
            loop.add_writer(descriptor, _arrive, ready)
        else:
            loop.add_reader(descriptor, _arrive, ready)
        try:
            await _within(ready, end)
        finally:
            if is_to_write:
                loop.remove_writer(descriptor)
            else:
                loop.remove_reader(descriptor)

    async def _join(self, connection: socket.socket, place: Place, end: float) -> None:
        connection.setblocking(False)
        try:
            connection.connect(place[1])
            return
        except (BlockingIOError, InterruptedError):
            # A Unix socket is connected at once or has a full queue.
            if isinstance(place[1], str):
                raise
        await self._is_ready(connection, True, end)
        error = connection.getsockopt(socket.SOL_SOCKET, socket.SO_ERROR)
        if error:
            raise OSError(error, os.strerror(error))

    async def _send(self, connection: socket.socket, data: bytes, end: float) -> None:
        left_until(end)
        rest = memoryview(data)
        while rest:
            try:
                rest = rest[connection.send(rest) :]
            except (BlockingIOError, InterruptedError):
                await self._is_ready(connection, True, end)

    async def _receive(self, connection: socket.socket, end: float) -> bytes:
        while True:
            await self._is_ready(connection, False, end)
            try:
                return connection.recv(PIECE)
            except (BlockingIOError, InterruptedError):
                continue


class Segment:
    """One segment of a client, with its number, as `snapd_client.Segment` is.
    Calls of several tasks wait for each other."""

    def __init__(self, client: Client, segment: int) -> None:
        """Use `Client.segment`."""
        self._client = client
        self._numbered = Numbered(client, segment)

    def __repr__(self) -> str:
        return f"{self._client!r}.segment({self._numbered.segment})"

    @property
    def number(self) -> Coroutine[Any, Any, int]:
        """The number of the value that was stored or read last, to be awaited: `await mine.number`."""
        return self._client._in_turn(self._numbered.learned)

    async def put(self, value: Bytes) -> int:
        """Stores `value` as the next number, and returns that once it is on the server's disk.

        After a refusal, or without an answer, the object's state is as in `snapd_client`. If the task is cancelled in
        it the value may have been stored, as after `NotAnswered`: the number stays.
        """
        held = messages.value_of(value)
        return await self._client._in_turn(lambda: self._numbered.put(held))

    async def get(self) -> bytes:
        """The value. `number` is its number then, also where another job stored it."""
        return await self._client._in_turn(self._numbered.get)
