"""The client for asyncio: what the other one's tests ask of both, and tasks and loops that share it."""

import asyncio
import inspect
import subprocess
import sys

import test_client_connections as of_connections
import test_clients as of_messages
import test_clients_serve as on_the_server
from clients import ENVIRONMENT, AioClient, Peer, cancelled, driven_client, oracle, raised, replaced, says_nothing
from waiting import PATIENCE

import snapd_client
from snapd_client import aio

# ---- the other client's tests ----

# Tests of the other client with one task at a time, run with this client instead.
SHARED = {
    of_messages: """
        test_both_clients_send_every_vector_and_read_its_reply test_replies_that_are_none_are_told_apart
        test_both_clients_scan_some_segments test_the_server_scans_some_segments
        test_the_longest_snapshot_is_read test_every_refusal_of_the_model
        test_every_number_of_a_refusal_has_its_exception
        test_a_refusal_keeps_the_connection test_what_is_no_value_or_number_is_a_type_error_before_a_byte_is_sent
        test_words_that_no_message_can_say
    """,
    of_connections: """
        test_an_answer_in_any_pieces test_a_new_connection_sends_the_same_bytes test_the_third_try_is_stored_once
        test_no_more_tries_than_were_asked_for test_nobody_listens test_timeouts test_a_timeout_is_of_the_whole_answer
        test_an_answer_that_comes_late_is_nobodys test_bytes_that_nobody_asked_for
        test_bytes_that_come_between_two_calls
        test_an_idle_connection_that_the_server_ended_costs_no_try test_a_closed_client_connects_again
        test_a_job_outlives_its_server
    """,
    on_the_server: """
        test_both_clients_ask_all_that_there_is test_both_clients_are_refused test_one_client_outlives_many_servers
    """,
}


def with_this_client(module, test):
    def run(snapd, rng):
        with replaced(module, "Client", driven_client):
            test(snapd, rng)
    return run


for _module, _names in SHARED.items():
    for _name in _names.split():
        globals()[f"{_name}_by_asyncio"] = with_this_client(_module, getattr(_module, _name))
# Only what begins with `test_` and can be called is a test.
del _module, _names, _name


def test_both_clients_have_the_same_names(_, __):
    for name in ("Client", "Segment"):
        of_both = [getattr(it, name) for it in (snapd_client, aio)]
        public = [{word for word in dir(it) if not word.startswith("_")} for it in of_both]
        assert public[0] == public[1], public
        for word in public[0]:
            blocking, awaited = (inspect.getattr_static(it, word) for it in of_both)
            assert blocking.__doc__ and awaited.__doc__, word
            if not isinstance(blocking, property):
                assert inspect.signature(blocking).parameters == inspect.signature(awaited).parameters, word
                assert asyncio.iscoroutinefunction(awaited) == (word != "segment"), word
        made = [[(it.name, it.kind, it.default) for it in inspect.signature(it).parameters.values()] for it in of_both]
        assert made[0] == made[1]


# ---- tasks ----

def test_tasks_take_turns_in_the_order_in_which_they_came(_, __):
    async def run(address):
        async with AioClient(address) as client:
            order = []

            async def write(number):
                assert await client.update(0, number, b"%d" % number) == number
                order.append(number)

            # Out of turn any of them would be refused.
            await asyncio.gather(*[write(number) for number in range(1, 101)])
            assert order == list(range(1, 101))

    with oracle.Server(oracle.Model(1)) as server:
        asyncio.run(run(server.address))


def test_a_client_is_shared_by_tasks(_, __):
    async def run(address):
        async with AioClient(address) as client:
            async def write(segment):
                mine = client.segment(segment)
                for number in range(1, 51):
                    assert await mine.put(b"%d" % number) == number
                    assert (await client.scan())[segment] == (number, b"%d" % number)
                    assert await mine.get() == b"%d" % number and await mine.number == number

            waiting = asyncio.ensure_future(client.wait({0: 50, 3: 50}, timeout=PATIENCE))
            await asyncio.gather(*map(write, range(4)))
            assert await waiting == {0: 50, 3: 50}
            mine = client.segment(0)
            assert sorted(await asyncio.gather(*[mine.put(b"x") for _ in range(50)])) == list(range(51, 101))

    with oracle.Server(oracle.Model(4)) as server:
        asyncio.run(run(server.address))


def test_a_close_waits_for_the_call_that_is_under_way(_, __):
    async def run(address):
        client = AioClient(address)
        call = asyncio.ensure_future(client.update(0, 1, b"hi"))
        await asyncio.sleep(0)
        await client.close()
        assert call.done() and call.result() == 1 and client._socket is None
        assert await client.scan() == ((1, b"hi"),)
        await client.close()

    with oracle.Server(oracle.Model(1)) as server:
        asyncio.run(run(server.address))


def test_loops_after_one_another_use_one_client(_, __):
    with oracle.Server(oracle.Model(1)) as server:
        client = AioClient(server.address)

        async def use(number):
            mine = client.segment(0)
            assert sorted(await asyncio.gather(mine.put(b""), mine.put(b""))) == [number, number + 1]

        for number in (1, 3, 5):
            asyncio.run(use(number))
        asyncio.run(client.close())


def test_tasks_of_two_loops_at_once_are_refused(_, __):
    async def run(client):
        return await client.scan()

    with Peer(says_nothing) as peer:
        client, loop = AioClient(peer.address, tries=1), asyncio.new_event_loop()
        call = loop.create_task(client.scan())
        loop.run_until_complete(asyncio.sleep(0.01))
        error = raised(lambda: asyncio.run(run(client)))
        assert type(error) is RuntimeError and "another loop" in str(error), error
        loop.run_until_complete(cancelled(call))
        loop.close()


# Nothing is left open, unawaited or unread, in Python's development mode, which would report each of these.
QUIET = """
import asyncio, sys
from snapd_client import WaitTimedOut
from snapd_client.aio import Client

async def main():
    # It would tell of each step that a machine with other work held up.
    asyncio.get_running_loop().slow_callback_duration = 3600
    async with Client(sys.argv[1]) as client:
        mine = client.segment(0)
        await asyncio.gather(*[mine.put(b"x") for _ in range(20)])
        for _ in range(50):
            begun = (client.scan(), mine.put(b"y"), client.wait({0: 10**6}, timeout=0.001))
            calls = [asyncio.ensure_future(it) for it in begun]
            await asyncio.sleep(0.0005)
            for it in calls:
                it.cancel()
            await asyncio.gather(*calls, return_exceptions=True)
        before = await mine.number
        try:
            assert await mine.put(b"y") in (before + 1,)
        finally:
            assert (await client.scan())[0] == (await mine.number, b"y")

asyncio.run(main())
"""


def test_nothing_is_left_behind(_, __):
    with oracle.Server(oracle.Model(1)) as server:
        run = subprocess.run([sys.executable, "-X", "dev", "-W", "error", "-c", QUIET, server.address], env=ENVIRONMENT,
                             capture_output=True, text=True, timeout=2 * PATIENCE)
        assert (run.returncode, run.stdout, run.stderr) == (0, "", ""), run.stderr


# A process that is forked off has a connection of its own, and a loop of its own.
FORKED = """
import asyncio, os, sys
from snapd_client.aio import Client

client = Client(sys.argv[1], timeout=60)

async def work(segment):
    mine = client.segment(segment)
    for number in range(1, 101):
        assert await mine.put(b"value") == number

asyncio.run(client.scan())
child = os.fork()
asyncio.run(work(0 if child else 1))
if not child:
    os._exit(0)
assert os.waitpid(child, 0)[1] == 0
assert asyncio.run(client.scan()) == ((100, b"value"), (100, b"value"))
asyncio.run(client.close())
"""


def test_a_process_that_is_forked_off_has_a_connection_of_its_own(_, __):
    with oracle.Server(oracle.Model(2)) as server:
        run = subprocess.run(
            [sys.executable, "-c", FORKED, server.address], env=ENVIRONMENT, capture_output=True, text=True,
            timeout=2 * PATIENCE,
        )
        assert (run.returncode, run.stdout, run.stderr) == (0, "", ""), run.stderr
