"""A terminal that `snapd watch` draws in: its screen, and the control sequences that it knows."""

import fcntl
import os
import pty
import re
import select
import struct
import termios
import time

from waiting import PATIENCE

# The last that a drawing says.
END = "\x1b[?25h"


class Screen:
    """What a terminal shows that knows these few sequences and no other, and what has left it at its top."""

    def __init__(self, columns, lines):
        self.columns, self.height = columns, lines
        self.lines, self.gone = [[" "] * columns for _ in range(lines)], []
        self.line = self.column = 0
        self.is_cursor_shown = self.is_wrapping = True
        self.colour = ""

    def take(self, text):
        """Shows this text, and obeys its control sequences."""
        for part in re.findall(r"\x1b\[[?0-9;]*[A-Za-z]|[^\x1b]|\x1b", text):
            if part[0] == "\x1b":
                self.obey(part[2:-1], part[-1])
            elif part == "\r":
                self.column = 0
            elif part == "\n":
                self.scroll() if self.line == self.height - 1 else self.go(1)
            else:
                assert part.isprintable(), repr(part)
                self.put(part)

    def put(self, letter):
        if self.column == self.columns:
            self.column = 0
            self.scroll() if self.line == self.height - 1 else self.go(1)
        self.lines[self.line][self.column] = letter
        self.column = self.column + 1 if self.is_wrapping else min(self.column + 1, self.columns - 1)

    def go(self, lines):
        self.line = max(0, min(self.line + lines, self.height - 1))

    def scroll(self):
        self.gone.append("".join(self.lines.pop(0)).rstrip())
        self.lines.append([" "] * self.columns)

    def obey(self, words, letter):
        match letter, words:
            case "A", _:
                self.go(-int(words or 1))
            case "B", _:
                self.go(int(words or 1))
            case "K", "":
                self.erase(self.line, self.column)
            case "J", "":
                self.erase(self.line, self.column)
                for line in range(self.line + 1, self.height):
                    self.erase(line, 0)
            case "m", _:
                self.colour = "" if words == "0" else words
            case ("h" | "l"), "?25":
                self.is_cursor_shown = letter == "h"
            case ("h" | "l"), "?7":
                self.is_wrapping = letter == "h"
            case _:
                raise AssertionError(f"what is {words}{letter}?")

    def erase(self, line, column):
        self.lines[line][column:] = [" "] * (self.columns - column)

    def resize(self, columns, lines):
        """As many terminals do: what is too long is cut, and where the cursor would be below it the lines go up."""
        while self.line >= lines:
            self.scroll()
            self.line -= 1
        self.lines = [(line + [" "] * columns)[:columns] for line in self.lines[:lines]]
        self.lines += [[" "] * columns for _ in range(lines - len(self.lines))]
        self.columns, self.height, self.column = columns, lines, min(self.column, columns - 1)

    def text(self):
        return ["".join(line).rstrip() for line in self.lines]

    def is_given_back(self):
        return self.is_cursor_shown and self.is_wrapping and self.colour == "" and self.column == 0


class Terminal:
    """A terminal of this size, and what it shows."""

    def __init__(self, columns=80, lines=24):
        self.end, self.side = pty.openpty()
        self.unread, self.told = "", ""
        self.screen = Screen(columns, lines)
        self.resize(columns, lines)

    def __enter__(self):
        return self

    def __exit__(self, *_):
        os.close(self.end)
        os.close(self.side)

    def resize(self, columns, lines):
        fcntl.ioctl(self.side, termios.TIOCSWINSZ, struct.pack("HHHH", lines, columns, 0, 0))
        self.screen.resize(columns, lines)

    def board(self):
        """Its screen after the next whole drawing."""
        until = time.monotonic() + PATIENCE
        while END not in self.unread:
            ready, _, _ = select.select([self.end], [], [], until - time.monotonic())
            assert ready, self.unread
            self.unread += os.read(self.end, 65_536).decode()
        self.told, _, self.unread = self.unread.partition(END)
        self.told += END
        self.screen.take(self.told)
        assert self.screen.is_given_back(), self.told
        return self.screen.text()

    def comes_to(self, wanted):
        """Until a board is so. It answers that board."""
        until = time.monotonic() + PATIENCE
        while not wanted(board := self.board()):
            assert time.monotonic() < until, board
        return board

    def rest(self):
        """Takes whatever came after the last board, once its other end is closed."""
        while select.select([self.end], [], [], 0.1)[0]:
            self.unread += os.read(self.end, 65_536).decode()
        self.screen.take(self.unread)
