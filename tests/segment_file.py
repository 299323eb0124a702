"""The segment file, written anew from docs/FORMATS.md as the judge of the program's files: the format,
and the old one."""

from dataclasses import dataclass

BLOCK = 4_096
OPEN = 0xA5
MAX_VALUE = 4_080
HEADER_GATE = BLOCK - 1


def gate_at(slot):
    return BLOCK + 2 * BLOCK * slot


def body_at(slot):
    return 2 * BLOCK + 2 * BLOCK * slot


def body(number, value):
    return number.to_bytes(8, "big") + len(value).to_bytes(4, "big") + bytes(4) + value + bytes(MAX_VALUE - len(value))


def gate(byte):
    return bytes([byte]) + bytes(BLOCK - 1)


@dataclass(frozen=True)
class Format:
    """What the two formats differ in: the mark and how many slots there are. Number k lies in slot k mod `slots`."""

    mark: bytes
    slots: int

    @property
    def length(self):
        return BLOCK * (1 + 2 * self.slots)

    def header(self, index, count):
        return self.mark + bytes([index, count]) + bytes(4_085) + bytes([OPEN])

    def image(self, slots, index=0, count=1):
        """A whole file. A slot is (number, value), or None for a closed one."""
        blocks = [self.header(index, count)]
        for slot in [*slots, *[None] * (self.slots - len(slots))]:
            blocks += [gate(0), bytes(BLOCK)] if slot is None else [gate(OPEN), body(*slot)]
        return b"".join(blocks)

    def holding(self, *values, index=0, count=1):
        """A whole file in which each of these (number, value) lies in its slot, and the other slots are closed."""
        slots = [None] * self.slots
        for number, value in values:
            slots[number % self.slots] = (number, value)
        return self.image(slots, index, count)

    def slot_of(self, data, slot):
        """`closed`, ("open", number, value) or ("bad", why), by the first reason that holds."""
        gate_block = data[gate_at(slot) : gate_at(slot) + BLOCK]
        body_block = data[body_at(slot) : body_at(slot) + BLOCK]
        if any(gate_block[1:]):
            return ("bad", "gate")
        if gate_block[0] != OPEN:
            return ("closed",)
        number = int.from_bytes(body_block[:8], "big")
        length = int.from_bytes(body_block[8:12], "big")
        if length > MAX_VALUE:
            return ("bad", "length")
        if any(body_block[12:16]) or any(body_block[16 + length :]):
            return ("bad", "zeros")
        if number >= 2**63 or number % self.slots != slot:
            return ("bad", "number")
        return ("open", number, bytes(body_block[16 : 16 + length]))

    def header_of(self, data):
        """`unformatted`, `wrong` or (index, count)."""
        if data[HEADER_GATE] != OPEN:
            return "unformatted"
        index, count = data[8], data[9]
        if data[:8] != self.mark or not index < count <= 16 or any(data[10:HEADER_GATE]):
            return "wrong"
        return (index, count)

    def answer_of(self, data):
        """The number and the value that the slots give, or None: one slot is open, or two with numbers that follow on
        each other."""
        slots = [self.slot_of(data, slot) for slot in range(self.slots)]
        if any(slot[0] == "bad" for slot in slots):
            return None
        found = sorted(slot[1:] for slot in slots if slot[0] == "open")
        if len(found) not in (1, 2) or found[-1][0] - found[0][0] != len(found) - 1:
            return None
        return found[-1]

    def findings(self, data):
        """What `check` prints of a file of the right length."""
        head = self.header_of(data)
        if isinstance(head, str):
            return f"header {head}\n"
        lines = ["header index %d count %d" % head]
        for slot in range(self.slots):
            seen = self.slot_of(data, slot)
            if seen[0] == "open":
                lines.append(f"slot {slot} open number {seen[1]} length {len(seen[2])}")
            else:
                lines.append(f"slot {slot} {' '.join(seen)}")
        answer = self.answer_of(data)
        lines.append(f"answer number {answer[0]}" if answer else "answer none")
        return "\n".join(lines) + "\n"


NOW = Format(b"SNAPSEG2", 3)
OLD = Format(b"SNAPSEG1", 2)

# The format, as most tests speak of it.
LENGTH = NOW.length
image, holding = NOW.image, NOW.holding
header, header_of, slot_of = NOW.header, NOW.header_of, NOW.slot_of
answer_of, findings = NOW.answer_of, NOW.findings


def advice(file):
    """The second line about a file of the old format's length, after that of its refusal."""
    command = f"snapd migrate {file} NEW --index I --count N"
    return f"{file}: it has the length of the old format: carry it over with {command}"


# The second lines of a command on the file F as segment 0 of 1, after that of a refusal.
DAMAGED = "F: its slots give no answer: see snapd check F"
FORMATTED = "F: it is formatted already: see snapd check F"
OF_ANOTHER = "F: it isn't the file of segment 0 of 1: see snapd check F"
UNFORMATTED = (
    "F: it was never formatted, or its header is gone: keep a copy first, then snapd format F --index 0 --count 1"
)
