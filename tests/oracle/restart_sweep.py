#!/usr/bin/env python3
"""Works out what `try_parts restart-sweep` must print, from the disk model and the order of an opening's calls alone.

Of three files only the second has an open place: the gate that its store opened, which was not synced. So all that has
to be known of it is that gate's byte, and what a fault or a crash leaves there. Of random bytes all that has to be
known is the byte of the header's gate: where it is open, what lies before it is no header.
"""

FILLS = {"keep": None, "00": 0x00, "a5": 0xA5}
CALLS = 6
HEADER_GATE = 4095
SEEDS = (1, 2, 3, 4, 19, 291, 399, 2**64 - 1)


class Gate:
    """The byte of the gate, and whether its place is open."""

    def __init__(self):
        self.byte = 0xA5
        self.open = True

    def fill(self, fill):
        if self.open and FILLS[fill] is not None:
            self.byte = FILLS[fill]

    def sync(self):
        self.open = False


def after_fault(call, fill):
    """The gate after an opening of which the call failed. Calls 2 and 3 are the sync and the read of the second
    file."""
    gate = Gate()
    if call == 2:
        gate.fill(fill)
    elif call > 2:
        gate.sync()
    return gate


def report(stored):
    second = "1 length 2 spare open" if stored else "0 length 0 spare closed"
    return (
        "segment 0 number 1 length 2 spare open, "
        f"segment 1 number {second}, segment 2 number 0 length 0 spare closed, segments 3"
    )


def row(how, call, fill):
    """One line: the opening ended at this call, if there is one, and a crash with each fill followed."""
    cells = []
    for crash in FILLS:
        gate = after_fault(call, fill)
        gate.fill(crash)
        cells.append(report(gate.byte == 0xA5))
    answer = f"DeviceFailed at segment {call // 2}" if call < CALLS else report(True)
    print(f"{how}: {answer}; " + " | ".join(cells))


def drawn(place):
    """The byte at this place of the random sequence: a middle byte of the square of a linear congruential number."""
    root = (place * 6364136223846793005 + 1442695040888963407) % 2**64
    return root * root % 2**64 >> 32 & 0xFF


def noise_row(seed):
    """Every call that checks the header reads from the place 0 on, and draws from the seed on."""
    if drawn((seed + HEADER_GATE) % 2**64) == 0xA5:
        opened, found, formatted = "WrongFile", "header wrong", "AlreadyFormatted"
    else:
        opened, found, formatted = "Unformatted", "header unformatted", "formatted"
    print(f"seed {seed}: {opened}, {opened} at segment 0, {found}, {formatted}, {opened} of the old file")


def main():
    print("opening of 3 files; then a crash with keep | 00 | a5, and an opening")
    for call in range(CALLS):
        for fill in FILLS:
            row(f"call {call} fails {fill}", call, fill)
    for passes in range(CALLS + 1):
        row(f"stop behind {passes}", passes, "keep")
    print("random bytes: open, open all of 3, check, format, migrate from them")
    for seed in SEEDS:
        noise_row(seed)


main()
