"""Tasks of the client for asyncio that are cancelled, or give up, at any step of their own calls and of other tasks'
calls."""

import asyncio
import contextlib
import socket
import time

from clients import STORED_ONE, AioClient, Deaf, Peer, cancelled, framed, hangs_up, oracle, replaced, says, says_nothing
from serving import snapshot, standings
from waiting import PATIENCE

import snapd_client
from snapd_client import aio, messages

ONE = snapshot((0, b""))


async def gives(task):
    """What a task gives, or raises."""
    return (await asyncio.gather(task, return_exceptions=True))[0]


async def comes(has_come):
    for _ in range(1000 * PATIENCE):
        if has_come():
            return
        await asyncio.sleep(0.001)
    raise AssertionError("it hasn't come")


def is_forgotten():
    """Whether the running loop watches none of the client's sockets: only its own waker is left."""
    return len(asyncio.get_running_loop()._selector.get_map()) == 1


def test_a_call_that_is_cancelled_leaves_the_connection_closed(_, __):
    """While it waits for the reply, with a part of it there or none; the next call makes a connection of its own."""
    frame = messages.update(0, 1, b"hi")

    def is_cut_short(peer, connection):
        says(STORED_ONE[:9], len(frame), says_nothing)(peer, connection)

    async def run(peer):
        async with AioClient(peer.address) as client:
            for count in (1, 2):
                call = asyncio.ensure_future(client.update(0, 1, b"hi"))
                await comes(lambda: len(peer.heard) == count and peer.heard[-1] == frame)
                if count == 2:
                    await comes(lambda: len(client._frames.held) == 9)
                connection = client._socket
                await cancelled(call)
                assert (
                    client._socket is None and connection.fileno() == -1 and not client._frames.held and is_forgotten()
                )
            assert await client.scan() == ((0, b""),)

    def hears(peer, connection):
        peer.hear(connection, len(frame))
        says_nothing(peer, connection)

    with Peer(hears, is_cut_short, says(ONE)) as peer:
        asyncio.run(run(peer))
    assert peer.heard == [frame, frame, messages.scan()]


def test_a_call_that_is_cancelled_while_it_connects(_, __):
    made = []

    class Kept(socket.socket):
        def __init__(self, *words, **named):
            super().__init__(*words, **named)
            made.append(self)

    async def run(address, peer):
        client = AioClient(address)
        with replaced(socket, "socket", Kept):
            call = asyncio.ensure_future(client.scan())
            await comes(lambda: not is_forgotten())
            assert not call.done() and len(made) == 1 and made[0].fileno() != -1
            await cancelled(call)
        assert client._socket is None and made[0].fileno() == -1 and is_forgotten()
        client._address = snapd_client.addresses.parse(peer.address)
        assert await client.scan() == ((0, b""),)
        await client.close()

    with Deaf() as deaf, Peer(says(ONE)) as peer:
        asyncio.run(run("{}:{}".format(*deaf.place), peer))


def test_a_call_that_is_cancelled_while_it_sends(_, __):
    """The peer reads nothing, so that the longest request stays in the buffers of the system."""
    async def run(listener):
        async with AioClient("{}:{}".format(*listener.getsockname())) as client:
            call = asyncio.ensure_future(client.update(0, 1, b"v" * 65_990))
            await comes(lambda: not is_forgotten())
            await asyncio.sleep(0.05)
            assert not call.done()
            await cancelled(call)
            assert client._socket is None and is_forgotten()

    def small(connection, place):
        connection.setsockopt(socket.SOL_SOCKET, socket.SO_SNDBUF, 1)
        return connect(connection, place)

    connect = socket.socket.connect
    with socket.socket() as listener:
        listener.setsockopt(socket.SOL_SOCKET, socket.SO_RCVBUF, 1)
        listener.bind(("127.0.0.1", 0))
        listener.listen()
        with replaced(socket.socket, "connect", small):
            asyncio.run(run(listener))


def test_a_pause_that_is_cancelled_leaves_the_connection_closed(_, __):
    async def run(peer):
        client = AioClient(peer.address, pause=PATIENCE)
        call = asyncio.ensure_future(client.scan())
        await comes(lambda: peer.heard and not peer.thread.is_alive())
        await asyncio.sleep(0.01)
        await cancelled(call)
        assert client._socket is None and is_forgotten()

    with Peer(hangs_up) as peer:
        asyncio.run(run(peer))


def test_who_is_cancelled_while_he_waits_for_his_turn_disturbs_nobody(_, __):
    async def run(address):
        async with AioClient(address) as client:
            first = asyncio.ensure_future(client.update(0, 1, b"a"))
            second = asyncio.ensure_future(client.update(0, 9, b"never"))
            third = asyncio.ensure_future(client.update(0, 2, b"b"))
            await asyncio.sleep(0)
            assert len(client._turns._waiting) == 2
            connection = client._socket
            await cancelled(second)
            assert await first == 1 and await third == 2
            assert client._socket is not None and connection in (None, client._socket)

    with oracle.Server(oracle.Model(1)) as server:
        asyncio.run(run(server.address))


def test_a_turn_that_comes_as_its_task_is_cancelled_goes_to_the_next(_, __):
    async def run():
        turns = aio._Turns()
        await turns.take(float("inf"))
        waiting = [asyncio.ensure_future(turns.take(float("inf"))) for _ in range(3)]
        await asyncio.sleep(0)
        turns.give()
        # The first one has its turn, and doesn't know it yet.
        await cancelled(waiting[0])
        await waiting[1]
        assert not waiting[2].done()
        turns.give()
        await waiting[2]
        turns.give()
        assert not turns._is_taken and not turns._waiting

    asyncio.run(run())


def test_a_turn_is_not_given_to_who_has_just_been_cancelled(_, __):
    """Nor by him: while one task is in no other one comes in."""
    async def run():
        turns = aio._Turns()
        await turns.take(float("inf"))
        waiting = [asyncio.ensure_future(turns.take(float("inf"))) for _ in range(4)]
        await asyncio.sleep(0)
        waiting[0].cancel()
        waiting[1].cancel()
        turns.give()
        await waiting[2]
        await asyncio.sleep(0.01)
        assert waiting[0].cancelled() and waiting[1].cancelled() and not waiting[3].done()
        turns.give()
        await waiting[3]
        # Nor to one whose time has run out without its knowledge.
        late = asyncio.ensure_future(turns.take(time.monotonic() + 0.05))
        await asyncio.sleep(0)
        time.sleep(0.1)
        asyncio.get_running_loop().call_later(0, turns.give)
        assert isinstance(await gives(late), socket.timeout)
        assert not turns._is_taken

    asyncio.run(run())


def test_one_task_is_in_whoever_is_cancelled_meanwhile(_, rng):
    """Tasks come, give up after a while, and are cancelled, at any step of each other. One is in at a time; each that
    stays gets in."""
    inside, came = set(), []

    async def stay(turns, name, until):
        await turns.take(until)
        try:
            inside.add(name)
            assert inside == {name}
            for _ in range(rng.randrange(3)):
                await asyncio.sleep(0)
            came.append(name)
        finally:
            inside.discard(name)
            turns.give()

    async def run():
        turns, staying = aio._Turns(), []
        for name in range(3_000):
            until = time.monotonic() + rng.choice([0, 0.001, 1000, 1000])
            staying.append((name, until, asyncio.ensure_future(stay(turns, name, until))))
            for _ in range(rng.randrange(3)):
                rng.choice(staying)[2].cancel()
            if not rng.randrange(4):
                await asyncio.sleep(0)
        given = await asyncio.gather(*[it[2] for it in staying], return_exceptions=True)
        assert all(it is None or isinstance(it, (asyncio.CancelledError, socket.timeout)) for it in given), given
        assert not turns._is_taken and not turns._waiting and not inside
        assert 100 < len(came) and came == sorted(came)

    asyncio.run(run())


def test_a_wait_that_is_cancelled(_, __):
    async def run(address):
        async with AioClient(address) as client:
            waiting = asyncio.ensure_future(client.wait({0: 1}, timeout=PATIENCE))
            await comes(lambda: model.answered > 5)
            await cancelled(waiting)
            assert await client.update(0, 1, b"") == 1

    model = oracle.Model(1)
    with oracle.Server(model) as server:
        asyncio.run(run(server.address))


def test_a_cancelled_put_leaves_the_number(_, __):
    """Its value may have been stored. It is put again, and is stored once."""
    first = messages.update(0, 6, b"hi")

    async def run(peer):
        async with AioClient(peer.address) as client:
            mine = client.segment(0)
            call = asyncio.ensure_future(mine.put(b"hi"))
            await comes(lambda: peer.heard and peer.heard[0].endswith(first))
            await cancelled(call)
            assert await mine.number == 5 and client._socket is None
            assert await mine.put(b"hi") == 6

    def learns(peer, connection):
        def hears(peer, connection):
            peer.hear(connection, 5 + len(first))
            says_nothing(peer, connection)
        says(standings((5, False)), 5, hears)(peer, connection)

    with Peer(learns, says(framed("81" + "00" * 7 + "06"), len(first))) as peer:
        asyncio.run(run(peer))
    assert peer.heard == [messages.status() + first, first]


def test_wait_for_of_asyncio_ends_a_call(_, __):
    async def run(peer):
        client = AioClient(peer.address)
        with contextlib.suppress(asyncio.TimeoutError):
            await asyncio.wait_for(client.scan(), 0.1)
            raise AssertionError("it was answered")
        assert client._socket is None and is_forgotten()
        assert await client.scan() == ((0, b""),)
        await client.close()

    with Peer(says_nothing, says(ONE)) as peer:
        asyncio.run(run(peer))


def test_a_wait_does_not_outlast_another_tasks_call(_, __):
    async def run(peer):
        client = AioClient(peer.address)
        call = asyncio.ensure_future(client.scan())
        await comes(lambda: peer.heard)
        try:
            await client.wait({0: 9}, timeout=0.1)
            raise AssertionError("it was answered")
        except snapd_client.WaitTimedOut as error:
            assert "another call" in str(error.__cause__), error
        assert not client._turns._waiting
        await cancelled(call)

    with Peer(says_nothing) as peer:
        asyncio.run(run(peer))
