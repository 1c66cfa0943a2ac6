"""Reads saved runs: `read_saved(data)` is the saved run of some bytes, as docs/saved-runs.md has it, or raises NoSavedRun with the place of
its first fault."""
from typing import NamedTuple

MOST_UNITS = 64
MOST_NUMBER = 2**64 - 1


class NoSavedRun(Exception):
    """Bytes are no saved run: how many stand before the first that is wrong."""

    def __init__(self, place):
        super().__init__(f"bad run file byte {place}")
        self.place = place


class Entry(NamedTuple):
    """A turn of a site: the number of the message that it delivers, or None, the threads of its units, and its lines."""

    site: int
    message: int
    units: tuple
    lines: tuple


class SavedRun(NamedTuple):
    """A saved run: its numbers, the bytes of its text, its entries, and its end line."""

    sites: int
    steps: int
    messages: int
    text: bytes
    entries: list
    end: bytes


class Bytes:
    """Bytes that are read from left to right."""

    def __init__(self, data):
        self.data, self.at = data, 0

    def expect(self, word):
        for byte in word:
            if self.data[self.at : self.at + 1] != bytes([byte]):
                raise NoSavedRun(self.at)
            self.at += 1

    def stands(self, word):
        return self.data.startswith(word, self.at)

    def number(self, least, most):
        start, data = self.at, self.data
        while self.at < len(data) and data[self.at] in b"0123456789":
            self.at += 1
        digits = data[start : self.at]
        if not digits:
            raise NoSavedRun(start)
        if len(digits) > 1 and digits[0] == ord("0"):
            raise NoSavedRun(start + 1 if least == 0 else start)
        if len(digits) > 20 or not least <= int(digits) <= most:
            raise NoSavedRun(start)
        return int(digits)

    def line(self):
        """What stands before the next newline, which is taken."""
        end = self.data.find(b"\n", self.at)
        if end < 0:
            raise NoSavedRun(len(self.data))
        found, self.at = self.data[self.at : end], end + 1
        return found


def read_saved(data):
    reader = Bytes(data)
    reader.expect(b"ozrun 1 ")
    numbers = []
    for least, most, behind in ((1, 64, b" "), (1, 10**9, b" "), (0, 4 * 10**9, b" "), (0, 2**20, b"\n")):
        numbers.append(reader.number(least, most))
        reader.expect(behind)
    sites, steps, messages, length = numbers
    if len(data) < reader.at + length:
        raise NoSavedRun(len(data))
    text = data[reader.at : reader.at + length]
    reader.at += length
    reader.expect(b"\n")
    entries = []
    while reader.stands(b"t"):
        entries.append(read_entry(reader, sites))
    reader.expect(b"end ")
    end = reader.line()
    if reader.at < len(data):
        raise NoSavedRun(reader.at)
    return SavedRun(sites, steps, messages, text, entries, end)


def read_entry(reader, sites):
    reader.expect(b"turn ")
    site = reader.number(1, sites)
    reader.expect(b" ")
    message = None
    if reader.stands(b"-"):
        reader.expect(b"-")
    else:
        message = reader.number(0, MOST_NUMBER)
    units, lines = [], []
    while reader.stands(b" "):
        if len(units) == MOST_UNITS:
            raise NoSavedRun(reader.at)
        reader.expect(b" ")
        home = reader.number(1, sites)
        reader.expect(b".")
        units.append((home, reader.number(0, MOST_NUMBER)))
    reader.expect(b"\n")
    while reader.stands(b"l"):
        reader.expect(b"line ")
        lines.append(reader.line())
    return Entry(site, message, tuple(units), tuple(lines))
