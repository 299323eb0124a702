"""The checker of histories itself (tests/oracle/histories.py): wrong histories one by one, and random small ones
against a search through all orders."""

import itertools
import pathlib
import sys

sys.path.insert(0, str(pathlib.Path(__file__).resolve().parent / "oracle"))

from histories import Scan, Update, Wrong, inf, judge  # noqa: E402

START = [(0, b""), (0, b"")]


def is_right(updates, scans, start=START):
    try:
        judge(start, updates, scans)
        return True
    except Wrong:
        return False


def scan(began, ended, *numbers):
    """A scan that shows the values which `wrote` gives."""
    return Scan(began, ended, [(number, value_of(segment, number)) for segment, number in enumerate(numbers)])


def value_of(segment, number):
    return b"%d of %d" % (number, segment) if number else b""


def wrote(segment, number, began, ended=inf):
    return Update(segment, number, value_of(segment, number), began, ended)


def is_explained(updates, scans):
    """Whether some order of all scans, and of the updates that ended or were seen, explains them:
    by trying every one."""
    seen = [max((it.numbers[segment] for it in scans), default=0) for segment in range(len(START))]
    done = [it for it in updates if it.ended < inf or it.number <= seen[it.segment]]
    for order in itertools.permutations([*done, *scans]):
        if any(b.ended < a.began for a, b in itertools.combinations(order, 2)):
            continue
        memory, right = [0] * len(START), True
        for step in order:
            if isinstance(step, Scan):
                right = right and step.numbers == memory
            else:
                right = right and step.number == memory[step.segment] + 1
                memory[step.segment] = step.number
        if right:
            return True
    return False


def test_right_histories(_, __):
    assert is_right([], []) and is_right([], [scan(0, 1, 0, 0)])
    both = [wrote(0, 1, 0, 10), wrote(1, 1, 0, 10)]
    assert is_right(both, [scan(1, 2, 0, 0), scan(3, 4, 1, 0), scan(5, 6, 1, 1)])
    assert is_right(both, [scan(1, 2, 1, 1), scan(11, 12, 1, 1)])
    # Cut off, and there or not; and there once it was seen.
    cut = [wrote(0, 1, 0)]
    assert is_right(cut, [scan(5, 6, 0, 0)]) and is_right(cut, [scan(5, 6, 0, 0), scan(7, 8, 1, 0)])
    assert is_right([Update(1, 8, b"x", 1, 2)], [Scan(3, 4, [(3, b"a"), (8, b"x")])], [(3, b"a"), (7, b"b")])


def test_wrong_histories(_, __):
    one, both = [wrote(0, 1, 0, 1)], [wrote(0, 1, 0, 10), wrote(1, 1, 0, 10)]
    for why, updates, scans in [
        ("a lost update", one, [scan(2, 3, 0, 0)]),
        ("one from the future", [wrote(0, 1, 5, 6)], [scan(2, 3, 1, 0)]),
        ("one that nobody made", [], [scan(0, 1, 1, 0)]),
        ("a number that is below the start's", one, [Scan(2, 3, [(-1, b""), (0, b"")])]),
        ("another value", one, [Scan(2, 3, [(1, b"x"), (0, b"")])]),
        ("a number behind its value", one, [Scan(0, 3, [(0, value_of(0, 1)), (0, b"")])]),
        ("another value at the start", [], [Scan(2, 3, [(0, b"x"), (0, b"")])]),
        ("two scans that see other orders", both, [scan(1, 2, 1, 0), scan(1, 2, 0, 1)]),
        ("a scan behind one that saw more", both, [scan(1, 2, 1, 1), scan(3, 4, 1, 0)]),
        ("what a scan showed is gone", [wrote(0, 1, 0)], [scan(1, 2, 1, 0), scan(3, 4, 0, 0)]),
        ("the later of two updates alone", [wrote(0, 1, 0, 1), wrote(1, 1, 2, 9)], [scan(0, 9, 0, 1)]),
        ("the same with one that was cut off", [wrote(0, 1, 0, 1), wrote(1, 1, 2)], [scan(0, 9, 0, 1)]),
        ("a segment too few", [], [Scan(0, 1, [(0, b"")])]),
        ("a number twice", [*one, wrote(0, 1, 2, 3)], []),
        ("a number that was left out", [wrote(0, 2, 0, 1)], []),
        ("two updates of a writer at once", [wrote(0, 1, 0, 3), wrote(0, 2, 2, 4)], []),
    ]:
        assert not is_right(updates, scans), why


def drawn(rng):
    """A small history at random: each client does one thing at a time, and the scans show any numbers."""
    updates, scans = [], []
    for segment in range(2):
        times = sorted(rng.sample(range(12), 4))
        for number in range(1, rng.randrange(1, 4)):
            ended = times[2 * number - 1] if rng.random() < 0.8 else inf
            updates.append(wrote(segment, number, times[2 * number - 2], ended))
            if ended == inf:
                break
    most = [sum(it.segment == segment for it in updates) for segment in range(2)]
    for _ in range(rng.randrange(1, 4)):
        began, ended = sorted(rng.sample(range(12), 2))
        scans.append(scan(began, ended, *[rng.randint(0, it) for it in most]))
    return updates, scans


def apart(updates, scans):
    """The same with times of which no two are equal."""
    for place, it in enumerate([*updates, *scans]):
        it.began += place / 100
        it.ended += place / 100 + 0.005
    return updates, scans


def test_random_histories_against_all_orders(_, rng):
    counts = {True: 0, False: 0}
    for _ in range(4_000):
        updates, scans = apart(*drawn(rng))
        wanted = is_explained(updates, scans)
        assert is_right(updates, scans) == wanted, (wanted, updates, scans)
        counts[wanted] += 1
    assert min(counts.values()) > 400, counts
