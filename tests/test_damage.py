"""Files made by hand, one for each reason of damage: refused by number, shown by `check`, and never changed."""

import segment_file as layout
from segment_file import BLOCK, LENGTH, OPEN, body_at, gate_at


def changed(data, *places):
    """The bytes with each (place, bytes) put in."""
    data = bytearray(data)
    for place, new in places:
        data[place : place + len(new)] = new
    return bytes(data)


def is_refused(snapd, data, number, name, lines):
    """`get` and `put` refuse the file, `check` prints these lines, and the file stays as it is."""
    snapd.file().write_bytes(data)
    more = {10: layout.DAMAGED, 11: layout.UNFORMATTED, 14: layout.OF_ANOTHER}[number]
    snapd("get", "F").refused(number, name, more)
    snapd("put", "F", stdin="new").refused(number, name, more)
    snapd("check", "F").gave(3, "".join(line + "\n" for line in lines))
    assert layout.findings(data) == "".join(line + "\n" for line in lines)
    assert snapd.file().read_bytes() == data


HEADER = "header index 0 count 1"
# The newest value lies in slot 1, and the one before it in slot 0; slot 2 is closed.
WHOLE = layout.holding((3, b"three"), (4, b"four"))
THREE, FOUR, SHUT = "slot 0 open number 3 length 5", "slot 1 open number 4 length 4", "slot 2 closed"
SLOTS = [THREE, FOUR, SHUT]


def with_slot(slot, line):
    """The lines of the slots with this one in its place."""
    return [line if it == slot else was for it, was in enumerate(SLOTS)]


def test_bad_slots(snapd, _):
    """Each reason in each slot, at the first and the last byte that it speaks of."""
    longest = (layout.MAX_VALUE + 1).to_bytes(4, "big")
    for slot, number, length in ((0, 3, 5), (1, 4, 4), (2, 5, 4)):
        gate, body = gate_at(slot), body_at(slot)
        # Slot 2 is open and well-formed, so that it is looked at.
        whole = WHOLE if slot < 2 else changed(WHOLE, (gate, bytes([OPEN])), (body, layout.body(5, b"five")))
        for why, places in {
            "gate": [(gate + 1, b"\1"), (gate + BLOCK - 1, b"\xa5")],
            "length": [(body + 8, longest), (body + 8, b"\xff")],
            "zeros": [(body + 12, b"\1"), (body + 15, b"\1"), (body + 16 + length, b"\1"), (body + BLOCK - 1, b"\1")],
            "number": [(body, b"\x80"), (body + 7, bytes([number ^ 1])), (body, b"\xff" * 8)],
        }.items():
            for place in places:
                lines = [HEADER, *with_slot(slot, f"slot {slot} bad {why}"), "answer none"]
                is_refused(snapd, changed(whole, place), 10, "Damaged", lines)


def test_first_reason(snapd, _):
    """A slot that is bad in several ways is bad for the first of them, and a bad gate block counts when closed too."""
    gate, body = gate_at(0), body_at(0)
    number, zeros, length, bad_gate = (body, b"\xff"), (body + 15, b"\1"), (body + 8, b"\xff"), (gate + 9, b"\1")
    for places, why in [
        ((number,), "number"),
        ((number, zeros), "zeros"),
        ((number, zeros, length), "length"),
        ((number, zeros, length, bad_gate), "gate"),
        ((bad_gate, (gate, b"\0")), "gate"),
    ]:
        is_refused(
            snapd, changed(WHOLE, *places), 10, "Damaged", [HEADER, *with_slot(0, f"slot 0 bad {why}"), "answer none"]
        )
    # And a bad gate of the slot that nothing was stored in.
    bad_gate = changed(WHOLE, (gate_at(2) + BLOCK - 1, b"\1"))
    is_refused(snapd, bad_gate, 10, "Damaged", [HEADER, *with_slot(2, "slot 2 bad gate"), "answer none"])


def test_damaged_slots(snapd, _):
    """Slots that are well-formed one by one and give no answer together."""
    for numbers in [(), (4, 6), (1, 6), (4, 8), (3, 8), (3, 4, 5), (5, 6, 7), (4, 5, 9)]:
        data = layout.holding(*[(number, b"a") for number in numbers])
        lines = [f"slot {slot} closed" for slot in range(3)]
        for number in numbers:
            lines[number % 3] = f"slot {number % 3} open number {number} length 1"
        is_refused(snapd, data, 10, "Damaged", [HEADER, *lines, "answer none"])
    for slot, number in ((0, 4), (1, 3), (2, 3), (0, 2)):
        misplaced = layout.image([(number, b"a") if it == slot else None for it in range(3)])
        lines = [f"slot {it} {'bad number' if it == slot else 'closed'}" for it in range(3)]
        is_refused(snapd, misplaced, 10, "Damaged", [HEADER, *lines, "answer none"])


def test_any_two_slots_answer(snapd, _):
    """Alone, or with the number before, wherever the two lie."""
    for number in range(1, 8):
        for values in ([(number, b"new")], [(number, b"new"), (number - 1, b"old")]):
            data = layout.holding(*values)
            snapd.file().write_bytes(data)
            snapd("get", "F").gave(0, "new")
            snapd("check", "F").gave(0, layout.findings(data))
            snapd("put", "F", stdin="next").gave(0, f"stored {number + 1}\n")
            left = layout.holding(*values[:1], (number + 1, b"next"))
            was = snapd.file().read_bytes()
            # The slot of the number before is closed now. Its body stays.
            shut = (number + 2) % 3
            body = slice(body_at(shut), body_at(shut) + BLOCK)
            assert was[: body.start] + left[body] + was[body.stop :] == left
            assert was[body] == data[body]


def test_closed_slots_are_not_looked_at(snapd, _):
    """Any byte but A5 closes a gate, and a slot with a closed gate may have any bytes."""
    for byte in (0x00, 0x01, 0x5A, 0xA4, 0xFF):
        data = changed(WHOLE, (gate_at(0), bytes([byte])), (body_at(0), b"\xff" * BLOCK))
        snapd.file().write_bytes(data)
        snapd("get", "F").gave(0, b"four")
        snapd("check", "F").gave(0, f"{HEADER}\nslot 0 closed\n{FOUR}\n{SHUT}\nanswer number 4\n")
        assert snapd.file().read_bytes() == data
        snapd("put", "F", stdin="fresh").gave(0, "stored 5\n")
        assert layout.answer_of(snapd.file().read_bytes()) == (5, b"fresh")
        # Nor where the next number is to lie.
        data = changed(WHOLE, (gate_at(2), bytes([byte])), (body_at(2), b"\xff" * BLOCK))
        snapd.file().write_bytes(data)
        snapd("get", "F").gave(0, b"four")
        snapd("put", "F", stdin="fresh").gave(0, "stored 5\n")
        snapd("get", "F").gave(0, b"fresh")


def test_headers(snapd, _):
    for byte in (0x00, 0x01, 0xA4, 0xFF):
        is_refused(snapd, changed(WHOLE, (BLOCK - 1, bytes([byte]))), 11, "Unformatted", ["header unformatted"])
    wrong = [(0, b"T"), (7, b"1"), (7, b"3"), (8, b"\1"), (9, b"\0"), (9, b"\x11"), (10, b"\1"), (BLOCK - 2, b"\1")]
    for place in wrong:
        is_refused(snapd, changed(WHOLE, place), 14, "WrongFile", ["header wrong"])
    # Another place among the segments is no damage: `check` shows it, and `get` wants it named.
    for place in (((9, b"\2"),), ((8, b"\1"), (9, b"\2"))):
        data = changed(WHOLE, *place)
        snapd.file().write_bytes(data)
        snapd("get", "F").refused(14, "WrongFile", layout.OF_ANOTHER)
        index, count = layout.header_of(data)
        snapd("check", "F").gave(0, f"header index {index} count {count}\n{THREE}\n{FOUR}\n{SHUT}\nanswer number 4\n")
        snapd("get", "F", "--index", index, "--count", count).gave(0, b"four")


def test_format_keeps_what_is_formatted(snapd, _):
    """A file whose header gate is open is never formatted, whatever else it holds."""
    for data in (WHOLE, bytes([OPEN]) * LENGTH, changed(bytes(LENGTH), (BLOCK - 1, bytes([OPEN])))):
        snapd.file().write_bytes(data)
        snapd("format", "F").refused(12, "AlreadyFormatted", layout.FORMATTED)
        assert snapd.file().read_bytes() == data


def test_largest_number(snapd, _):
    """At the last number `put` is refused, and below it one more is stored."""
    last = 2**63 - 1
    data = layout.holding((last, b"end"))
    assert last % 3 == 1
    snapd.file().write_bytes(data)
    snapd("put", "F", stdin="x").refused(9, "Exhausted")
    assert snapd.file().read_bytes() == data
    snapd("check", "F").gave(
        0, f"{HEADER}\nslot 0 closed\nslot 1 open number {last} length 3\nslot 2 closed\nanswer number {last}\n"
    )
    snapd.file().write_bytes(layout.holding((last - 1, b"u")))
    snapd("put", "F", stdin="x").gave(0, f"stored {last}\n")
    snapd("get", "F").gave(0, b"x")


def test_random_files(snapd, random):
    """Files with a few random bytes changed: the program says what the format says."""
    for _ in range(300):
        places = [0, 8, 9, 10, BLOCK - 1]
        for slot in range(3):
            places += [gate_at(slot), gate_at(slot) + 1, *range(body_at(slot), body_at(slot) + 18)]
        picked = []
        for _ in range(random.randrange(1, 4)):
            byte = random.choice([0, 1, 4, 5, OPEN, random.randrange(256)])
            picked.append((random.choice(places), bytes([byte])))
        data = changed(WHOLE, *picked)
        snapd.file().write_bytes(data)
        answer, head = layout.answer_of(data), layout.header_of(data)
        if head == "unformatted":
            snapd("get", "F").refused(11, "Unformatted", layout.UNFORMATTED)
        elif head != (0, 1):
            snapd("get", "F").refused(14, "WrongFile", layout.OF_ANOTHER)
        elif answer is None:
            snapd("get", "F").refused(10, "Damaged", layout.DAMAGED)
        else:
            snapd("get", "F").gave(0, answer[1])
        ends = 0 if answer is not None and not isinstance(head, str) else 3
        snapd("check", "F").gave(ends, layout.findings(data))
        assert snapd.file().read_bytes() == data
