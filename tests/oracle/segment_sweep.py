#!/usr/bin/env python3
"""Works out what `try_parts segment-sweep` must print, from the disk model and the format of a segment file alone.

It is written from docs/FORMATS.md ("Segment file", "The old format") and docs/PROMISES.md (the disk model) and shares
nothing with the program: bytes are a bytearray, open places are a set.
"""

import struct

BLOCK = 4096
SLOTS, OLD_SLOTS = 3, 2
FILE, OLD_FILE = BLOCK * (1 + 2 * SLOTS), BLOCK * (1 + 2 * OLD_SLOTS)
OPEN, SHUT = 0xA5, 0x00
MARK, OLD_MARK = b"SNAPSEG2", b"SNAPSEG1"
LONGEST = 4080
FILLS = {"keep": None, "00": SHUT, "a5": OPEN}


class Fault(Exception):
    """The device failed in this call."""


class Device:
    """Bytes and open places. `stop` says of a call's number, from 1, whether it fails and with which fill."""

    def __init__(self, data=bytes(FILE)):
        self.bytes = bytearray(data)
        self.open = set()
        self.calls = 0
        self.stop = lambda call: None

    def fill(self, places, fill):
        if FILLS[fill] is not None:
            for place in places:
                self.bytes[place] = FILLS[fill]

    def call(self, touched):
        """Counts a call. Where it is to fail, the touched places are filled."""
        self.calls += 1
        fill = self.stop(self.calls)
        if fill is not None:
            self.fill(touched, fill)
            raise Fault

    def read(self, at, count):
        self.call(())
        return bytes(self.bytes[at : at + count])

    def write(self, at, data):
        places = range(at, at + len(data))
        self.open.update(places)
        self.call(places)
        self.bytes[at : at + len(data)] = data

    def sync(self):
        self.call(sorted(self.open))
        self.open.clear()

    def crash(self, fill):
        self.fill(self.open, fill)


def gate_at(slot):
    return (1 + 2 * slot) * BLOCK


def body_at(slot):
    return (2 + 2 * slot) * BLOCK


def body_block(number, value):
    return (struct.pack(">QII", number, len(value), 0) + value).ljust(BLOCK, b"\0")


def header_front(index, count, mark=MARK):
    return (mark + bytes([index, count])).ljust(BLOCK - 1, b"\0")


def slots_with(slots, *values):
    """The blocks after the header with these numbers and values, each in its slot."""
    data = bytearray(2 * BLOCK * slots)
    for number, value in values:
        at = 2 * BLOCK * (number % slots)
        data[at] = OPEN
        data[at + BLOCK : at + 2 * BLOCK] = body_block(number, value)
    return bytes(data)


def read_slot(file, slot, slots):
    """None where the slot is closed, its number and value where it is open. A bad slot is a ValueError."""
    gate = file[gate_at(slot) : gate_at(slot) + BLOCK]
    body = file[body_at(slot) : body_at(slot) + BLOCK]
    if any(gate[1:]):
        raise ValueError("gate")
    if gate[0] != OPEN:
        return None
    number, length, zeros = struct.unpack(">QII", body[:16])
    if length > LONGEST:
        raise ValueError("length")
    if zeros or any(body[16 + length :]):
        raise ValueError("zeros")
    if number >= 2**63 or number % slots != slot:
        raise ValueError("number")
    return number, body[16 : 16 + length]


def newest(slots):
    """The number, the value, and whether the number before is there too. None where the slots give no answer."""
    found = sorted(slot for slot in slots if slot is not None)
    if len(found) == 1:
        return *found[0], False
    if len(found) == 2 and found[1][0] - found[0][0] == 1:
        return *found[1], True
    return None


def format_with(device, index, count, number, value):
    """Makes the file hold this number alone. What it was refused by, or None."""
    try:
        device.sync()
        if device.read(0, BLOCK)[BLOCK - 1] == OPEN:
            return "AlreadyFormatted"
        device.write(0, header_front(index, count))
        device.write(BLOCK, slots_with(SLOTS, (number, value)))
        device.sync()
        device.write(BLOCK - 1, bytes([OPEN]))
        device.sync()
    except Fault:
        return "DeviceFailed"
    return None


def format_file(device, index=0, count=1):
    return format_with(device, index, count, 0, b"") or "formatted"


def open_file(device, index=0, count=1, mark=MARK, slots=SLOTS):
    """The number, the value and the spare gate, or the name of a refusal."""
    try:
        device.sync()
        file = device.read(0, len(device.bytes))
    except Fault:
        return "DeviceFailed"
    if file[BLOCK - 1] != OPEN:
        return "Unformatted"
    if file[: BLOCK - 1] != header_front(index, count, mark):
        return "WrongFile"
    try:
        return newest([read_slot(file, slot, slots) for slot in range(slots)]) or "Damaged"
    except ValueError:
        return "Damaged"


def migrate(old, new, index=0, count=1):
    """Carries what a file of the old format holds over to a new file."""
    found = open_file(old, index, count, OLD_MARK, OLD_SLOTS)
    if isinstance(found, str):
        return f"{found} of the old file"
    number, value, _ = found
    why = format_with(new, index, count, number, value)
    return f"{why} of the new file" if why else f"migrated {number}"


def store(device, number, spare_open, value):
    """Stores the value as this number. False at the first call that fails."""
    slot = number % SLOTS
    try:
        if spare_open:
            device.write(gate_at((number + 1) % SLOTS), bytes([SHUT]))
        device.write(body_at(slot), body_block(number, value))
        device.sync()
        device.write(gate_at(slot), bytes([OPEN]))
        device.sync()
    except Fault:
        return False
    return True


def word(value):
    return value.decode() or "empty"


def words(found):
    if isinstance(found, str):
        return found
    number, value, spare_open = found
    return f"{number} {word(value)} {'open' if spare_open else 'closed'}"


def run_format(stop, crash):
    device = Device()
    device.stop = stop
    answer = f"{format_file(device)}, calls {device.calls}"
    device.crash(crash)
    device.stop = lambda call: None
    found = words(open_file(device))
    return answer, f"{found}, {format_file(device)}"


def run_store(stored, value, stop, crash):
    device = Device()
    format_file(device)
    number, held, spare_open = 0, b"", False
    for earlier in stored:
        store(device, number + 1, spare_open, earlier)
        number, held, spare_open = number + 1, earlier, True
    device.calls = 0
    device.stop = stop
    if store(device, number + 1, spare_open, value):
        answer = f"stored {number + 1}"
    else:
        # A fence: the number and the value stay, and no store makes a call again.
        answer = f"DeviceFailed at {number} {word(held)}, {word(value)} begun, Fenced"
    answer += f", calls {device.calls}"
    device.crash(crash)
    device.stop = lambda call: None
    return answer, words(open_file(device))


def old_with_hi():
    """A file of the old format with number 0 and the empty value, and number 1 and `hi`."""
    return Device(header_front(0, 1, OLD_MARK) + bytes([OPEN]) + slots_with(OLD_SLOTS, (0, b""), (1, b"hi")))


def run_migrate(stop, crash):
    """The calls are counted over both files: two of the old one, and then those of the new one."""
    old, new = old_with_hi(), Device()
    old.stop, new.stop = stop, lambda call: stop(call + 2)
    answer = migrate(old, new)
    answer += f", calls {old.calls} and {new.calls}"
    for device in (old, new):
        device.crash(crash)
        device.stop = lambda call: None
    assert old.bytes == old_with_hi().bytes
    found = words(open_file(new))
    return answer, f"{found}, {migrate(old, new)}"


def fault(at, fill):
    return lambda call: fill if call == at else None


def fuse(passes):
    return lambda call: "keep" if call > passes else None


def is_new(call, calls, fill, crash):
    """The rule in one sentence, beside the model: the new value is there if the opening write or the sync after it
    failed and the last of the two fills that isn't `keep` is a5, or if that sync failed and both are `keep`."""
    last = [each for each in (fill, crash) if each != "keep"][-1:]
    if call <= calls - 2:
        return False
    return last == ["a5"] or (call == calls and not last)


def row(how, run, stop):
    cells = [run(stop, crash) for crash in FILLS]
    print(f"{how}: {cells[0][0]}; " + " | ".join(found for _, found in cells))
    return [found for _, found in cells]


def sweep(title, calls, run, new):
    print(title)
    for call in range(1, calls + 1):
        for fill in FILLS:
            found = row(f"call {call} fails {fill}", run, fault(call, fill))
            for crash, words in zip(FILLS, found):
                assert words.startswith(new) == is_new(call, calls, fill, crash)
    for passes in range(calls + 1):
        row(f"stop behind {passes}", run, fuse(passes))


def main():
    after = "then a crash with keep | 00 | a5"
    sweep(
        f"format on zeros; {after}, an opening, and a second format",
        7,
        run_format,
        "0 empty",
    )
    sweep(
        f"store of hi, the spare gate closed; {after} and an opening",
        4,
        lambda stop, crash: run_store([], b"hi", stop, crash),
        "1 hi",
    )
    sweep(
        f"store of yo, the spare gate open; {after} and an opening",
        5,
        lambda stop, crash: run_store([b"hi"], b"yo", stop, crash),
        "2 yo",
    )
    sweep(
        "migration of number 1 and hi to a file of zeros; "
        f"{after} of both, an opening of the new file, and a second migration",
        9,
        run_migrate,
        "1 hi",
    )


if __name__ == "__main__":
    main()
