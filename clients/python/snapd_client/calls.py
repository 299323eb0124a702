"""What a call does, whichever client makes it.

It is written once, as coroutines. The client of asyncio awaits them. The waits of the other one block and never
suspend, so that a coroutine comes to its end in one step (`completed`).
"""

import abc
import math
import os
import socket
import time
import weakref
from typing import Any, Coroutine, Dict, Iterable, Mapping, NoReturn, Optional, TypeVar

from . import addresses, messages
from .addresses import Address, OfFile, OfHost, Place, Places
from .errors import BadReply, NotAnswered, Refused, SnapdError, TimedOut
from .messages import Standing
from .questions import Question

Answer = TypeVar("Answer")
Failure = TypeVar("Failure", bound=SnapdError)

PIECE = 65_536
# How long a call rests, in seconds, where a Unix socket's queue has no room for one more caller.
QUEUE = 0.002
# By how much a timer may be early, in seconds.
TICK = 0.001


class _Gone(Exception):
    """The connection ended before the reply."""


class OutOfTime(TimedOut):
    """The time that was left for a call ran out before its tries did. It doesn't leave this package."""


def left_until(end: float) -> float:
    """The seconds that are left, above 0. `socket.timeout` where none are."""
    left = end - time.monotonic()
    if left <= 0:
        raise socket.timeout("timed out")
    return left


def completed(call: Coroutine[Any, Any, Answer]) -> Answer:
    """What a coroutine gives whose waits block."""
    try:
        call.send(None)
    except StopIteration as end:
        answer: Answer = end.value
        return answer
    raise AssertionError("a wait that blocks has suspended")


# The clients of this process, which a process that is forked off has inherited.
_callers: "weakref.WeakSet[Caller]" = weakref.WeakSet()


def _begin_anew() -> None:
    for caller in list(_callers):
        caller._begin_anew()


# Two processes on one connection would take each other's replies.
if hasattr(os, "register_at_fork"):
    os.register_at_fork(after_in_child=_begin_anew)


class Caller(abc.ABC):
    """One connection to a server, made again where it breaks. It is for one call at a time."""

    def __init__(self, address: Address, timeout: float, tries: int, pause: float) -> None:
        if timeout <= 0 or pause < 0 or tries < 1:
            raise ValueError("timeout is above 0, pause at least 0, tries at least 1")
        self._address = addresses.parse(address)
        self._timeout = timeout
        self._tries = tries
        self._pause = pause
        self._socket: Optional[socket.socket] = None
        self._frames = messages.Frames()
        _callers.add(self)

    def __repr__(self) -> str:
        return f"{type(self).__module__}.{type(self).__qualname__}({str(self._address)!r})"

    # ---- what a client waits for; each end is a time of `time.monotonic`, after which `socket.timeout` is raised ----

    @abc.abstractmethod
    async def _sleep(self, seconds: float) -> None: ...

    @abc.abstractmethod
    async def _look_up(self, address: OfHost, end: float) -> Places: ...

    @abc.abstractmethod
    async def _join(self, connection: socket.socket, place: Place, end: float) -> None:
        """Connects a fresh socket."""

    @abc.abstractmethod
    async def _send(self, connection: socket.socket, data: bytes, end: float) -> None: ...

    @abc.abstractmethod
    async def _receive(self, connection: socket.socket, end: float) -> bytes:
        """What comes next; nothing where the connection has ended."""

    @abc.abstractmethod
    async def _look(self, least: Mapping[int, int], end: float) -> Dict[int, Standing]:
        """The numbers and fences of these segments, by a call of its own."""

    # ---- one call ----

    async def _answer(self, question: Question[Answer], until: float = math.inf) -> Answer:
        """Asks, until this time at most."""
        try:
            answer = question.answer(await self._exchange(question.frame, until))
        except BaseException as error:
            # Whatever ended the call, an answer may still come: this connection isn't asked again.
            self._drop()
            if isinstance(error, SnapdError):
                self._named(error, question.segments)
            raise
        if isinstance(answer, Refused):
            raise self._named(answer, question.segments)
        return answer

    def _named(self, error: Failure, segments: Iterable[int]) -> Failure:
        """The error, which names the server from now on, and the segment if there is just one."""
        names = tuple(segments)
        error.address, error.segment = str(self._address), names[0] if len(names) == 1 else None
        return error

    async def _exchange(self, frame: bytes, until: float) -> bytes:
        """Sends the frame and reads a payload, over as many connections as it may take."""
        pause = self._pause
        for tried in range(1, self._tries + 1):
            try:
                return await self._try(frame, min(time.monotonic() + self._timeout, until))
            except (OSError, _Gone) as error:
                self._drop()
                is_last = tried == self._tries
                if not is_last:
                    await self._sleep(min(pause, max(until - time.monotonic(), 0)))
                is_late = time.monotonic() >= until - TICK
                if is_last or is_late:
                    self._give_up(error, tried, is_late)
            pause *= 2
        raise AssertionError("a client has at least one try")

    def _give_up(self, error: Exception, tried: int, is_late: bool) -> NoReturn:
        kind = OutOfTime if is_late else TimedOut if isinstance(error, socket.timeout) else NotAnswered
        raise kind(f"{self._address}: no answer after {tried} tries: {error}") from error

    async def _try(self, frame: bytes, end: float) -> bytes:
        connection = await self._connected(end)
        await self._send(connection, frame, end)
        while True:
            payload = self._frames.next()
            if payload is not None:
                return payload
            piece = await self._receive(connection, end)
            if not piece:
                raise _Gone("the connection ended before the reply")
            self._frames.push(piece)

    # ---- connections ----

    async def _connected(self, end: float) -> socket.socket:
        """The open connection, or a new one if there is none or the server has closed it."""
        if self._socket is not None and self._is_closed(self._socket):
            self._drop()
        if self._socket is None:
            self._socket = await self._connection(end)
        return self._socket

    async def _connection(self, end: float) -> socket.socket:
        """A new one. Each place gets its share of the time that is left:
        one that says nothing leaves some for the next."""
        places = addresses.known(self._address)
        if places is None:
            assert isinstance(self._address, OfHost)
            places = await self._look_up(self._address, end)
        for at, place in enumerate(places):
            share = left_until(end) / (len(places) - at)
            try:
                return await self._joined(place, time.monotonic() + share)
            except OSError:
                if at == len(places) - 1:
                    raise
        raise OSError("the name has no address")

    async def _joined(self, place: Place, end: float) -> socket.socket:
        connection = socket.socket(place[0], socket.SOCK_STREAM)
        try:
            if isinstance(self._address, OfFile):
                await self._join_queue(connection, place, end)
            else:
                connection.setsockopt(socket.IPPROTO_TCP, socket.TCP_NODELAY, 1)
                await self._join(connection, place, end)
        except BaseException:
            connection.close()
            raise
        return connection

    async def _join_queue(self, connection: socket.socket, place: Place, end: float) -> None:
        """Connects to a Unix socket. If its queue is full the system reports that at once and doesn't wait."""
        while True:
            try:
                return await self._join(connection, place, end)
            except BlockingIOError:
                await self._sleep(min(QUEUE, left_until(end)))

    def _is_closed(self, connection: socket.socket) -> bool:
        """Whether the server has ended it. `BadReply` if bytes came without a request."""
        if self._frames.held:
            raise BadReply("bytes came that nobody asked for")
        connection.setblocking(False)
        try:
            if connection.recv(1, socket.MSG_PEEK):
                raise BadReply("bytes came that nobody asked for")
            return True
        except (BlockingIOError, InterruptedError):
            return False
        except OSError:
            return True

    def _drop(self) -> None:
        if self._socket is not None:
            self._socket.close()
        self._socket = None
        self._frames = messages.Frames()

    def _begin_anew(self) -> None:
        """Drops what a forked process has inherited."""
        self._drop()
