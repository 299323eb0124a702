#!/usr/bin/env python3
"""Works out what `try_parts restart-threads` must print, from the disk model and the order of a store's calls alone.

A body is written while its gate is closed, and synced before its gate is written. So all that has to be known of a file
is the number in each slot, the gates, and which gates are pending. The threads change none of that.
"""

FILLS = (None, 0x00, 0xA5)
SEGMENTS, UPDATES, GENERATIONS = 4, 10, 200


class Draw:
    """The linear congruential generator of Knuth's MMIX."""

    def __init__(self, seed):
        self.state = seed

    def below(self, bound):
        self.state = (self.state * 6364136223846793005 + 1442695040888963407) % 2**64
        return (self.state >> 33) % bound

    def fill(self):
        return FILLS[self.below(3)]


class Fault(Exception):
    """The device failed in this call."""


class File:
    """The gates of three slots, those that were written since the last sync, and the number in each slot."""

    def __init__(self):
        self.gates, self.pending, self.numbers = [0xA5, 0, 0], set(), [0, None, None]
        self.calls_left, self.fill_then = None, None

    def fill(self, slots, fill):
        if fill is not None:
            for slot in slots:
                self.gates[slot] = fill

    def call(self, touched):
        """Where the call is the one that fails, what it touched is filled."""
        self.calls_left -= 1
        if self.calls_left == -1:
            self.fill(touched, self.fill_then)
            raise Fault

    def write_gate(self, slot, byte):
        self.pending.add(slot)
        self.call([slot])
        self.gates[slot] = byte

    def sync(self):
        self.call(self.pending)
        self.pending.clear()

    def number(self):
        return max(number for gate, number in zip(self.gates, self.numbers) if gate == 0xA5)

    def recover(self):
        """The sync and the read of an opening, which don't fail here."""
        self.pending.clear()
        return self.number()

    def store(self, number):
        slot, spare = number % 3, (number + 1) % 3
        if self.gates[spare] == 0xA5:
            self.write_gate(spare, 0)
        self.call([])
        self.numbers[slot] = number
        self.sync()
        self.write_gate(slot, 0xA5)
        self.sync()


def generation(file):
    """The number with which a writer starts, and the last one that it answers."""
    start = last = file.recover()
    try:
        for _ in range(UPDATES):
            file.store(last + 1)
            last += 1
    except Fault:
        pass
    return start, last


def main():
    draw, files = Draw(20_261_123), [File() for _ in range(SEGMENTS)]
    for which in range(1, GENERATIONS + 1):
        for file in files:
            file.calls_left, file.fill_then = draw.below(60), draw.fill()
        numbers = [generation(file) for file in files]
        starts, ends = (" ".join(map(str, each)) for each in zip(*numbers))
        print(f"generation {which} starts at {starts}, stored up to {ends}")
        for file in files:
            file.fill(file.pending, draw.fill())


main()
