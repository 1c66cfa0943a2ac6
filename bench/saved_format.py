"""Saved runs as docs/saved-runs.md tells them: written from that page alone, to hold the program to it."""

MOST = 2**64 - 1


class Bad(Exception):
    """No saved run goes on at this byte."""

    def __init__(self, at):
        self.at = at


class Cursor:
    def __init__(self, data):
        self.data, self.at = data, 0

    def begins(self, byte):
        return self.data[self.at : self.at + 1] == byte

    def word(self, word):
        for byte in word:
            if self.at >= len(self.data) or self.data[self.at] != byte:
                raise Bad(self.at)
            self.at += 1

    def number(self, least, most):
        first = self.at
        while self.at < len(self.data) and 48 <= self.data[self.at] <= 57:
            self.at += 1
        digits = self.data[first : self.at]
        if not digits:
            raise Bad(first)
        if digits[0] == 48 and len(digits) > 1:
            raise Bad(first + 1 if least == 0 else first)
        if not least <= int(digits) <= most:
            raise Bad(first)
        return int(digits)

    def line(self):
        end = self.data.find(b"\n", self.at)
        if end < 0:
            raise Bad(len(self.data))
        words, self.at = self.data[self.at : end], end + 1
        return words

    def text(self, length):
        if self.at + length > len(self.data):
            raise Bad(len(self.data))
        self.at += length
        return self.data[self.at - length : self.at]


def entry(cursor, sites):
    cursor.word(b"turn ")
    site = cursor.number(1, sites)
    cursor.word(b" ")
    if cursor.begins(b"-"):
        cursor.word(b"-")
        message = None
    else:
        message = cursor.number(0, MOST)
    units = []
    while cursor.begins(b" "):
        if len(units) == 64:
            raise Bad(cursor.at)
        cursor.word(b" ")
        thread = cursor.number(1, sites)
        cursor.word(b".")
        units.append((thread, cursor.number(0, MOST)))
    cursor.word(b"\n")
    lines = []
    while cursor.begins(b"l"):
        cursor.word(b"line ")
        lines.append(cursor.line())
    return site, message, units, lines


def read(data):
    """The sites, the limits, the text, the entries and the end line; or Bad, at the first fault."""
    cursor = Cursor(data)
    cursor.word(b"ozrun 1 ")
    sites = cursor.number(1, 64)
    cursor.word(b" ")
    steps = cursor.number(1, 10**9)
    cursor.word(b" ")
    messages = cursor.number(0, 4 * 10**9)
    cursor.word(b" ")
    length = cursor.number(0, 2**20)
    cursor.word(b"\n")
    text = cursor.text(length)
    cursor.word(b"\n")
    entries = []
    while cursor.begins(b"t"):
        entries.append(entry(cursor, sites))
    cursor.word(b"end ")
    end = cursor.line()
    if cursor.at < len(data):
        raise Bad(cursor.at)
    return sites, steps, messages, text, entries, end


def write(run):
    """The text of a saved run."""
    sites, steps, messages, text, entries, end = run
    parts = [b"ozrun 1 %d %d %d %d\n" % (sites, steps, messages, len(text)), text, b"\n"]
    for site, message, units, lines in entries:
        parts.append(b"turn %d %s" % (site, b"-" if message is None else b"%d" % message))
        parts += [b" %d.%d" % unit for unit in units]
        parts.append(b"\n")
        parts += [b"line " + line + b"\n" for line in lines]
    return b"".join(parts) + b"end " + end + b"\n"
