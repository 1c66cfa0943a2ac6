"""Tokens of the book's language: `tokens(text)` are those of a text, an end or a fault behind them. A text has a character for each byte, so
that places count bytes."""
import re
from typing import NamedTuple

from reading import RESERVED

MOST_NAME = 255
BLANKS = "\t\n\v\f\r "
# What stands behind the backslash of an escape, with the byte that it is.
ATOM_ESCAPES = {"'": 39, "\\": 92, "n": 10}
STRING_ESCAPES = {"a": 7, "b": 8, "t": 9, "n": 10, "v": 11, "f": 12, "r": 13, "\\": 92, "'": 39, '"': 34, "&": 38}
PLAIN = re.compile(
    r"(?P<variable>[A-Z]\w*)|(?P<word>[a-z]\w*)|(?P<integer>~?\d+)"
    r"|(?P<sign>\[\]|==|\\=|=<|>=|:=|\.\.|[=(){}$:.|+\-*<>\[\]#@!_~;])",
    re.ASCII,
)


class Token(NamedTuple):
    """A token: its kind, its slice of the text, what it stands for, and where it begins and ends. Of a fault, `said` is what is wrong and
    `value` is where."""

    kind: str
    said: str
    value: object
    start: int
    end: int


class Fault(Exception):
    """What is wrong with a text, and how many bytes stand before it."""

    def __init__(self, at, said):
        super().__init__(said)
        self.at, self.said = at, said


def tokens(text):
    """The tokens of a text; the last is its end, or the fault behind which nothing is read."""
    found, at = [], 0
    try:
        while True:
            at = after_gap(text, at)
            if at == len(text):
                return found + [Token("end", "", None, at, at)]
            found.append(token_at(text, at))
            at = found[-1].end
    except Fault as fault:
        return found + [Token("fault", fault.said, fault.at, at, at)]


def after_gap(text, at):
    """The place behind blanks and comments."""
    while at < len(text):
        if text.startswith("/*", at):
            at = after_comment(text, at)
        elif text[at] == "%":
            newline = text.find("\n", at)
            at = len(text) if newline < 0 else newline
        elif text[at] in BLANKS + "?":
            at += 1
        else:
            break
    return at


def after_comment(text, at):
    """The place behind a comment; comments nest."""
    depth = 0
    for mark in re.compile(r"/\*|\*/").finditer(text, at):
        depth += 1 if mark[0] == "/*" else -1
        if depth == 0:
            return mark.end()
    raise Fault(at, "open comment")


def token_at(text, at):
    """The token that begins here."""
    if text[at] == "'":
        return named("atom", text, at, *quoted(text, at, "'", ATOM_ESCAPES))
    if text[at] == '"':
        codes, end = quoted(text, at, '"', STRING_ESCAPES)
        return Token("string", text[at:end], codes, at, end)
    if text[at] == "&":
        return character(text, at)
    match = PLAIN.match(text, at)
    if not match:
        raise Fault(at, "bad character")
    kind, said = match.lastgroup, match[0]
    if kind == "word" and said not in RESERVED:
        kind = "atom"
    if kind in ("variable", "atom"):
        return named(kind, text, at, [ord(each) for each in said], match.end())
    return Token(kind, said, int(said.replace("~", "-")) if kind == "integer" else None, at, match.end())


def named(kind, text, at, codes, end):
    if end - at > MOST_NAME:
        raise Fault(at, "name too long")
    return Token(kind, text[at:end], "".join(map(chr, codes)), at, end)


def quoted(text, start, quote, escapes):
    """The codes between two quotes, and the place behind the second."""
    codes, at = [], start + 1
    while at < len(text):
        code = ord(text[at])
        if text[at] == quote:
            return codes, at + 1
        if text[at] == "\\" and at + 1 < len(text):
            if text[at + 1] not in escapes:
                raise Fault(at, "bad escape")
            codes.append(escapes[text[at + 1]])
            at += 1
        elif code < 32 or code == 127 or (quote == '"' and code > 126):
            raise Fault(at, "bad character")
        else:
            codes.append(code)
        at += 1
    raise Fault(start, "open quote")


def character(text, at):
    """An integer that is written as `&` and its character."""
    behind = text[at + 1 : at + 2]
    if behind == "\\":
        if text[at + 2 : at + 3] not in STRING_ESCAPES:
            raise Fault(at + 1, "bad escape")
        return Token("character", text[at : at + 3], STRING_ESCAPES[text[at + 2]], at, at + 3)
    if not behind or not 32 <= ord(behind) <= 126:
        raise Fault(at, "bad character")
    return Token("character", text[at : at + 2], ord(behind), at, at + 2)
