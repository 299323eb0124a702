"""A segment that keeps its number, and waits for numbers, of both clients in Python and of the one in C: against the
server in plain Python and against peers that misbehave."""

import pickle
import threading
import time

from clients import BOTH, STORED_ONE, Client, Peer, ask, framed, hangs_up, hangs_up_after, oracle, part, raised, refused
from clients import replaced, says, says_nothing
from serving import snapshot, standings, stored
from waiting import PATIENCE, wait_until

import snapd_client
from snapd_client import messages

# How long a call may take beyond what it was given, on a machine that has other work, in seconds.
LATE = 5


# ---- a segment ----

def test_a_segment_keeps_its_number(_, __):
    for make in BOTH:
        model = oracle.Model(2)
        with oracle.Server(model) as server, make(server.address) as client:
            mine = client.segment(1)
            assert model.answered == 0
            assert mine.put(b"a") == 1 and model.answered == 2
            assert mine.put(bytearray(b"b")) == 2 and mine.number == 2 and model.answered == 3
            assert mine.get() == b"b" and mine.number == 2 and model.answered == 4
            assert client.scan() == ((0, b""), (2, b"b"))
            # Another one learns the number by one request, and continues after it.
            other = client.segment(1)
            assert other.number == 2 and other.number == 2 and model.answered == 6
            assert other.put(b"c") == 3


def test_a_get_tells_value_and_number_of_one_moment(_, __):
    for make in BOTH:
        model = oracle.Model(1)
        model.segments[0].store(7, b"seven")
        with oracle.Server(model) as server, make(server.address) as client:
            mine = client.segment(0)
            assert mine.get() == b"seven" and model.answered == 1
            assert mine.number == 7 and model.answered == 1
            assert mine.put(b"eight") == 8 and model.answered == 2


def test_another_writer_is_noticed_and_nothing_is_tried_again(_, __):
    for make in BOTH:
        model = oracle.Model(1)
        with oracle.Server(model) as server, make(server.address) as client:
            mine = client.segment(0)
            assert mine.number == 0
            client.update(0, 1, b"a stranger's")
            for _ in range(2):
                before = model.answered
                refused(lambda: mine.put(b"mine"), 4, 1)
                assert (mine.number, model.answered) == (0, before + 1)
            client.update(0, 2, b"a stranger's")
            refused(lambda: mine.put(b"mine"), 5, 2)
            assert mine.number == 0 and client.scan() == ((2, b"a stranger's"),)
            # A put follows the value that was read.
            assert mine.get() == b"a stranger's" and mine.number == 2
            assert mine.put(b"mine") == 3
            client.update(0, 4, b"another one")
            assert mine.number == 3 and mine.get() == b"another one" and mine.number == 4
            assert mine.put(b"mine") == 5


def test_refusals_of_a_put_leave_the_number(_, __):
    for make in BOTH:
        model = oracle.Model(2)
        model.segments[0].fenced = True
        with oracle.Server(model) as server, make(server.address) as client:
            mine, other = client.segment(0), client.segment(1)
            refused(lambda: mine.put(b""), 6, 0)
            refused(lambda: other.put(b"v" * 4_081), 3, 4_081)
            model.segments[0].fenced = False
            model.segments[1].number = (1 << 63) - 1
            assert mine.put(b"") == 1 and mine.number == 1
            assert other.get() == b""
            refused(lambda: other.put(b""), 9, (1 << 63) - 1)
            assert other.number == (1 << 63) - 1


def test_a_segment_that_the_server_has_not(_, __):
    for make in BOTH:
        with oracle.Server(oracle.Model(3)) as server, make(server.address) as client:
            for segment in (3, 15):
                mine = client.segment(segment)
                refused(lambda: mine.put(b""), 2, 3)
                refused(mine.get, 2, 3)
                refused(lambda: mine.number, 2, 3)
            assert client._socket is not None


def test_words_that_no_segment_or_wait_is_of(_, __):
    for make in BOTH:
        with make("127.0.0.1:1", tries=1) as client:
            for segment in (16, -1, 1 << 70):
                assert type(raised(lambda: client.segment(segment))) is ValueError
            for segment in ("0", 0.0, None, [0]):
                assert type(raised(lambda: client.segment(segment))) is TypeError
            mine = client.segment(0)
            for value in ("hi", 5, None, [1]):
                assert type(raised(lambda: mine.put(value))) is TypeError
            assert type(raised(lambda: mine.put(b"v" * 65_991))) is ValueError
            for numbers in ({}, {16: 1}, {-1: 1}, {0: -1}, {0: 1 << 63}):
                assert type(raised(lambda: client.wait(numbers, timeout=1))) is ValueError, numbers
            for numbers in ({"0": 1}, {0: "1"}, {0: 1.0}, {0: None}):
                assert type(raised(lambda: client.wait(numbers, timeout=1))) is TypeError, numbers
            for timeout in (0, -1, float("nan")):
                assert type(raised(lambda: client.wait({0: 1}, timeout=timeout))) is ValueError
    for words in (("put", 16, "hi"), ("get", 16), ("wait", 0, 0, 1), ("wait", -1, 0, 1), ("wait", 1000, 16, 1),
                  ("put", 0, "v" * 65_991)):
        assert ask("127.0.0.1:1", *words) == (2, "", "bad call\n"), words


def test_a_put_over_a_lost_connection_sends_the_same_bytes(_, __):
    status, first = messages.status(), messages.update(0, 1, b"hi")

    def learns_and_hangs_up(peer, connection):
        says(standings((0, False)), len(status), hangs_up_after(len(status + first)))(peer, connection)

    for make, peer in Peer.each(learns_and_hangs_up, says(STORED_ONE, len(first))):
        with peer, make(peer.address, pause=0.001) as client:
            mine = client.segment(0)
            assert mine.put(b"hi") == 1 and mine.number == 1
        assert peer.heard == [status + first, first]
    # Where no try is left the call fails, and the next one sends the same again.
    for make, peer in Peer.each(learns_and_hangs_up, says(STORED_ONE, len(first))):
        with peer, make(peer.address, tries=1) as client:
            mine = client.segment(0)
            assert type(raised(lambda: mine.put(b"hi"))) is snapd_client.NotAnswered
            assert mine.number == 0 and mine.put(b"hi") == 1
        assert peer.heard == [status + first, first]


def test_another_value_behind_a_put_without_an_answer_is_a_conflict(_, __):
    for make in BOTH:
        model = oracle.Model(1)

        def stores_and_hangs_up(peer, connection):
            peer.hear(connection, 16)
            model.answer(peer.heard[-1][4:])

        with oracle.Server(model) as server, Peer(stores_and_hangs_up) as peer, make(server.address, tries=1) as client:
            mine = client.segment(0)
            assert mine.number == 0
            client.close()
            client._address, address = snapd_client.addresses.parse(peer.address), client._address
            assert type(raised(lambda: mine.put(b"hi"))) is snapd_client.NotAnswered
            client._address = address
            refused(lambda: mine.put(b"yo"), 4, 1)
            # Its own value is acknowledged again, and a get shows which one is there.
            assert mine.get() == b"hi" and mine.number == 1 and mine.put(b"yo") == 2


def test_hostile_replies_to_a_segment(_, __):
    number_fell = [says(part(0, 5, b"five")), says(part(0, 4, b"four"), 7)]
    for make, peer in Peer.each(*number_fell):
        with peer, make(peer.address) as client:
            mine = client.segment(0)
            assert mine.get() == b"five"
            client.close()
            error = raised(mine.get)
            assert type(error) is snapd_client.BadReply and "4" in str(error) and "5" in str(error), error
            assert mine.number == 5 and client._socket is None
    # What a put learns by: cut off, of another request, a snapshot, nothing known; and the reply of another segment.
    for reply in ("8301" + "00" * 8, "81" + "00" * 8, "8201" + "00" * 12, "99"):
        for make, peer in Peer.each(says(framed(reply))):
            with peer, make(peer.address) as client:
                mine = client.segment(0)
                assert type(raised(lambda: mine.put(b"hi"))) is snapd_client.BadReply
                assert mine._numbered.number is None and client._socket is None
    for reply in (part(1, 5), framed("8400"), standings((5, False))):
        for make, peer in Peer.each(says(reply, 7)):
            with peer, make(peer.address) as client:
                assert type(raised(client.segment(0).get)) is snapd_client.BadReply
    for make, peer in Peer.each(says(standings((6, False)), 5, says(stored(8), 5 + 16))):
        with peer, make(peer.address) as client:
            mine = client.segment(0)
            assert type(raised(lambda: mine.put(b"hi"))) is snapd_client.BadReply and mine.number == 6


def test_a_segment_is_shared_by_threads(_, __):
    with oracle.Server(oracle.Model(1)) as server, Client(server.address) as client:
        mine, numbers = client.segment(0), []

        def write():
            for count in range(50):
                numbers.append(mine.put(b"%d" % count))

        threads = [threading.Thread(target=write) for _ in range(4)]
        for thread in threads:
            thread.start()
        for thread in threads:
            thread.join()
        assert sorted(numbers) == list(range(1, 201)) and mine.number == 200


def test_the_c_client_puts_and_gets(_, __):
    model = oracle.Model(2)
    with oracle.Server(model) as server:
        assert ask(server.address, "get", 1) == (0, "segment 1 number 0 value -\n", "")
        assert ask(server.address, "put", 1, "hi") == (0, "stored 1\n", "")
        assert ask(server.address, "put", 1, "hi") == (0, "stored 2\n", "")
        assert ask(server.address, "get", 1) == (0, "segment 1 number 2 value 6869\n", "")
        assert ask(server.address, "put", 2, "hi") == (3, "", "refused 2 NoSegment 2\n")
        assert ask(server.address, "get", 2) == (3, "", "refused 2 NoSegment 2\n")
        model.segments[0].fenced = True
        assert ask(server.address, "put", 0, "hi") == (3, "", "sent as 1: refused 6 Fenced 0\n")
    # Another writer came between its two requests; a reply that is none; and none at all.
    for reply, ended in [(framed("e004" + "00" * 7 + "09"), (3, "", "sent as 9: refused 4 Conflict 9\n")),
                         (stored(8), (1, "", "sent as 9: bad reply\n")), (b"", (1, "", "sent as 9: not answered\n"))]:
        def answers(peer, connection):
            says(standings((8, False)), 5, says(reply, 21) if reply else hangs_up_after(21))(peer, connection)

        with Peer(answers) as peer:
            assert ask(peer.address, "put", 0, "hi") == ended
        assert peer.heard == [messages.status() + messages.update(0, 9, b"hi")]
    for reply, count, words in [
        (part(1, 5), 7, ("get", 0)), (snapshot((5, b"")), 7, ("get", 0)), (framed("8400"), 7, ("get", 0)),
        (stored(1), 5, ("put", 0, "hi")), (framed("8301" + "00" * 8), 5, ("put", 0, "hi")),
    ]:
        with Peer(says(reply, count)) as peer:
            assert ask(peer.address, *words) == (1, "", "bad reply\n"), words
    with Peer(says(standings((5, False))[:-1], 5, hangs_up)) as peer:
        assert ask(peer.address, "put", 0, "hi") == (1, "", "not answered\n")


# ---- waits ----

def test_a_wait_for_what_is_there_asks_once(_, __):
    model = oracle.Model(4)
    for segment, number in enumerate((3, 17, 0, 20)):
        model.segments[segment].number = number
    with oracle.Server(model) as server:
        for make in BOTH:
            with make(server.address) as client:
                model.answered = 0
                seen = client.wait({3: 17, 1: 17}, timeout=PATIENCE)
                assert seen == {1: 17, 3: 20} and list(seen) == [1, 3]
                assert client.wait({2: 0}, PATIENCE) == {2: 0} and model.answered == 2
        model.answered = 0
        lines = "segment 1 number 17 fenced 0\nsegment 3 number 20 fenced 0\n"
        assert ask(server.address, "wait", 1000 * PATIENCE, 3, 17, 1, 17) == (0, lines, "") and model.answered == 1


def test_a_wait_ends_once_all_have_come(_, __):
    for make in BOTH:
        model = oracle.Model(2)
        with oracle.Server(model) as server, make(server.address) as client, Client(server.address) as writer:
            def write():
                for segment in (1, 0):
                    looks = model.answered
                    wait_until(lambda: model.answered >= looks + 3)
                    for number in (1, 2, 3):
                        writer.update(segment, number, b"")

            writing = threading.Thread(target=write)
            writing.start()
            seen = client.wait({0: 2, 1: 3}, timeout=PATIENCE)
            writing.join()
            assert seen in ({0: 2, 1: 3}, {0: 3, 1: 3})
            writer.update(0, 4, b"")
            writing = threading.Thread(target=lambda: writer.update(1, 4, b""))
            writing.start()
            assert ask(server.address, "wait", 1000 * PATIENCE, 1, 4)[0] == 0
            writing.join()


def test_a_wait_that_ends_at_a_later_look_tells_what_that_one_saw(_, __):
    looks = says(standings((5, False)), 5, says(standings((6, False)), 10, says(standings((7, False)), 15)))
    for make, peer in Peer.each(looks):
        with peer, make(peer.address) as client:
            assert client.wait({0: 7}, timeout=PATIENCE) == {0: 7}
    with Peer(looks) as peer:
        assert ask(peer.address, "wait", 1000 * PATIENCE, 0, 7) == (0, "segment 0 number 7 fenced 0\n", "")


def test_threads_make_their_calls_while_another_one_waits(_, __):
    with oracle.Server(oracle.Model(1)) as server, Client(server.address) as client:
        seen = []
        waiting = threading.Thread(target=lambda: seen.append(client.wait({0: 20}, timeout=PATIENCE)))
        waiting.start()
        mine = client.segment(0)
        for _ in range(20):
            mine.put(b"step")
        waiting.join()
        assert seen == [{0: 20}]


def test_a_wait_that_times_out_says_who_lags(_, __):
    model = oracle.Model(3)
    model.segments[0].number, model.segments[1].fenced, model.segments[2].number = 12, True, 9
    with oracle.Server(model) as server:
        for make in BOTH:
            with make(server.address) as client:
                began = time.monotonic()
                error = raised(lambda: client.wait({0: 17, 1: 2, 2: 9}, timeout=1))
                took = time.monotonic() - began
                assert type(error) is snapd_client.WaitTimedOut and isinstance(error, snapd_client.SnapdError)
                assert error.numbers == {0: 12, 1: 0, 2: 9} and error.lagging == {0: 5, 1: 2}
                assert str(error) == ("after 1 s segment 0 lags by 5: it is at number 12 of 17; "
                                      "segment 1, which is fenced, lags by 2: it is at number 0 of 2"), error
                assert 0.99 < took < 1 + LATE, took
                again = pickle.loads(pickle.dumps(error))
                assert (str(again), again.lagging, again.numbers) == (str(error), error.lagging, error.numbers)
        began = time.monotonic()
        lines = "segment 0 number 12 fenced 0\nsegment 1 number 0 fenced 1\n"
        assert ask(server.address, "wait", 1000, 0, 17, 1, 2) == (1, lines, "timed out\n")
        assert 0.99 < time.monotonic() - began < 1 + LATE


def test_a_wait_rests_longer_each_time(_, __):
    with oracle.Server(oracle.Model(1)) as server:
        for make in BOTH:
            with make(server.address) as client:
                rests, now = [], [100.0]

                async def sleep(seconds):
                    rests.append(seconds)
                    now[0] += seconds

                client._sleep = sleep
                with replaced(snapd_client.segments.time, "monotonic", lambda: now[0]):
                    assert type(raised(lambda: client.wait({0: 1}, timeout=1))) is snapd_client.WaitTimedOut
                steps = [0.001 * (1 << at) for at in range(7)] + [0.1] * 7
                assert [round(it, 6) for it in rests[:14]] == steps, rests
                # What is left then is a bit more than a tenth of a second, of which it takes the half each time.
                last = rests[14:]
                assert all(later < before for before, later in zip(last, last[1:])) and len(last) < 12, last
                assert sum(rests) > 1 - 0.0011
    # The polls of the client in C are counted: one for each of the long rests, and few others.
    model = oracle.Model(1)
    with oracle.Server(model) as server:
        assert ask(server.address, "wait", 1000, 0, 1)[0] == 1
        assert 5 <= model.answered <= 30, model.answered


def test_a_wait_rests_on_no_clock_that_is_set(_, __):
    def is_set():
        raise AssertionError("it has asked for the time of day")

    with oracle.Server(oracle.Model(1)) as server:
        for make in BOTH:
            with make(server.address) as client, replaced(time, "time", is_set):
                assert type(raised(lambda: client.wait({0: 1}, timeout=0.05))) is snapd_client.WaitTimedOut


def test_a_wait_for_a_segment_that_the_server_has_not(_, __):
    model = oracle.Model(2)
    with oracle.Server(model) as server:
        for make in BOTH:
            with make(server.address) as client:
                model.answered = 0
                refused(lambda: client.wait({0: 9, 2: 0}, timeout=PATIENCE), 2, 2)
                assert model.answered == 1
        assert ask(server.address, "wait", 1000 * PATIENCE, 0, 9, 2, 0) == (3, "", "refused 2 NoSegment 2\n")
        assert ask(server.address, "wait", 1000 * PATIENCE, 15, 0) == (3, "", "refused 2 NoSegment 2\n")


def test_hostile_replies_to_a_wait(_, __):
    one, fell = standings((5, False)), standings((4, False))
    for make, peer in Peer.each(says(one, 5, says(fell, 10))):
        with peer, make(peer.address) as client:
            error = raised(lambda: client.wait({0: 9}, timeout=PATIENCE))
            assert type(error) is snapd_client.BadReply and "number 4" in str(error) and client._socket is None
    with Peer(says(one, 5, says(fell, 10))) as peer:
        assert ask(peer.address, "wait", 1000 * PATIENCE, 0, 9) == (1, "segment 0 number 5 fenced 0\n", "bad reply\n")
    for text in (
        "8301" + "00" * 8, "8300", "83", "82010000000000000005" + "00" * 4, "8301" + "00" * 8 + "02", "81" + "00" * 8,
    ):
        for make, peer in Peer.each(says(framed(text))):
            with peer, make(peer.address) as client:
                assert type(raised(lambda: client.wait({0: 9}, timeout=PATIENCE))) is snapd_client.BadReply, text
        with Peer(says(framed(text))) as peer:
            assert ask(peer.address, "wait", 1000 * PATIENCE, 0, 9) == (1, "", "bad reply\n")
    # The other segments' numbers don't matter.
    for make, peer in Peer.each(
        says(standings((5, False), (9, False)), 5, says(standings((6, False), (1, False)), 10))
    ):
        with peer, make(peer.address) as client:
            assert client.wait({0: 6}, timeout=PATIENCE) == {0: 6}


def test_a_wait_without_an_answer(_, __):
    for make, peer in Peer.each(says_nothing):
        with peer, make(peer.address) as client:
            began = time.monotonic()
            error = raised(lambda: client.wait({0: 9}, timeout=0.3))
            assert type(error) is snapd_client.WaitTimedOut and "no look was answered" in str(error), error
            assert (error.lagging, error.numbers) == ({}, {}) and isinstance(error.__cause__, snapd_client.TimedOut)
            assert 0.29 < time.monotonic() - began < 0.3 + LATE and client._socket is None
    with Peer(says_nothing) as peer:
        assert ask(peer.address, "wait", 300, 0, 9, tries=9) == (1, "", "timed out\n")
    # It is as patient as any call: without an answer after its tries it doesn't wait on.
    for make, peer in Peer.each(*[hangs_up_after(5)] * 2):
        with peer, make(peer.address, tries=2, pause=0.001) as client:
            assert type(raised(lambda: client.wait({0: 9}, timeout=PATIENCE))) is snapd_client.NotAnswered
    with Peer(*[hangs_up_after(5)] * 2) as peer:
        assert ask(peer.address, "wait", 1000 * PATIENCE, 0, 9, tries=2) == (1, "", "not answered\n")
    for make, peer in Peer.each(says_nothing):
        with peer, make(peer.address, timeout=0.1, tries=1) as client:
            assert type(raised(lambda: client.wait({0: 9}, timeout=PATIENCE))) is snapd_client.TimedOut
    with Peer(says_nothing) as peer:
        assert ask(peer.address, "wait", 1000 * PATIENCE, 0, 9, timeout=100) == (1, "", "not answered\n")
    # A pause that is longer than the remaining time is cut short, and no try follows it.
    for make, peer in Peer.each(hangs_up_after(5)):
        with peer, make(peer.address, tries=2, pause=PATIENCE) as client:
            began = time.monotonic()
            error = raised(lambda: client.wait({0: 9}, timeout=0.2))
            assert type(error) is snapd_client.WaitTimedOut and "1 tries" in str(error.__cause__)
            assert 0.19 < time.monotonic() - began < 0.2 + LATE
    with Peer(hangs_up_after(5)) as peer:
        began = time.monotonic()
        assert ask(peer.address, "wait", 90, 0, 9, tries=9) == (1, "", "timed out\n")
        assert 0.09 < time.monotonic() - began < 0.2 + LATE


def test_a_wait_does_not_outlast_another_threads_call(_, __):
    with Peer(says_nothing) as peer, Client(peer.address, tries=1) as client:
        call = threading.Thread(target=lambda: raised(client.scan))
        call.start()
        wait_until(lambda: peer.heard and client._is_taken)
        error = raised(lambda: client.wait({0: 9}, timeout=0.1))
        assert type(error) is snapd_client.WaitTimedOut and "another call" in str(error.__cause__), error
        client._socket.shutdown(2)
        call.join()
