"""Each allocation of a client's calls is refused in turn: the call fails as `NoMemory`, and another client is answered.
`try_parts service-allocations` makes the calls and prints the last answer; the end-to-end tests want it built
(`make programs`)."""

from test_service_allocations import SEGMENTS, count, run

ANSWER = f"snapshot of {SEGMENTS}\n"


def test_each_allocation_of_a_call_is_refused(snapd, _):
    # The frames of the connection are made before, so both rounds beyond are the clients' own: an update,
    # a status and a scan each.
    before, after = (count(snapd.folder, "call", rounds) for rounds in (0, 2))
    round_of = (after - before) // 2
    assert round_of > 0 and after - before == 2 * round_of
    assert run("call", 2) == ANSWER
    for number in range(before + 1, after + 1):
        is_last = number > before + round_of
        printed = run("call", 2, ALLOCATIONS_REFUSE=str(number))
        assert printed == ("fault NoMemory\n" if is_last else ANSWER), (number, printed)
