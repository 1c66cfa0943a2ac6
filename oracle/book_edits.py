"""A translation as edits of a text: each of its tokens is kept or dropped, and pieces stand before and behind them. What stands between tokens
stays, so each line does."""
from collections import defaultdict
from typing import NamedTuple

from book_tokens import BLANKS, Fault

MOST_BYTES = 1_048_576


class NewName:
    """A name that no text has. It gets its number where it is first written."""

    number = None


class Piece(NamedTuple):
    """What is put in: texts and new names. `is_atom` is whether it ends with an atom that is a value."""

    parts: tuple
    is_atom: bool = False


OPENING = Piece(("(",))
NO_LABEL = Piece(("()",))


class Place(NamedTuple):
    """Where something of a translation stands: its line and column there, its column in the text, and whether it is a token that was kept."""

    line: int
    column: int
    source_column: int
    kept: int


class Edits:
    """The edits of a text. `values` are the atoms that are values, and `openings` the brackets that stay around values."""

    def __init__(self, tokens):
        self.tokens, self.front, self.back, self.in_place = tokens, defaultdict(list), defaultdict(list), {}
        self.values, self.openings = set(), set()

    def before(self, at, *parts):
        self.front[at].append(Piece(parts))

    def behind(self, at, *parts):
        self.back[at].append(Piece(parts))

    def opens(self, at):
        self.front[at].append(OPENING)

    def drop(self, *tokens):
        for at in tokens:
            self.in_place.setdefault(at, [])

    def put(self, at, *parts, is_atom=False):
        """Drops a token, and puts a piece in its place."""
        self.in_place.setdefault(at, []).append(Piece(parts, is_atom))


class Page:
    """What is written of a text with its edits. `edge` is whether a blank has to stand before the next token, and `after_atom` whether what was
    written last is an atom that is a value."""

    def __init__(self, text, edits, prefix):
        self.text, self.edits, self.prefix, self.written, self.size = text, edits, prefix, [], 0
        self.line, self.column, self.line_of_row, self.count = 1, 1, 0, 0
        self.edge, self.after_atom, self.places = False, False, []
        self.last, self.source_column = "", 1

    def add(self, said):
        """Writes some bytes."""
        self.size += len(said)
        if self.size > MOST_BYTES:
            raise Fault(None, "text too long")
        self.written.append(said)
        newlines = said.count("\n")
        self.line += newlines
        self.column = len(said) - said.rfind("\n") if newlines else self.column + len(said)
        self.last = said[-1:] or self.last

    def add_gap(self, said):
        self.add(said)
        self.source_column = len(said) - said.rfind("\n") if "\n" in said else self.source_column + len(said)

    def add_edge(self):
        if self.last and self.last not in BLANKS:
            self.add(" ")

    def add_row(self, kept):
        self.places.append(Place(self.line, self.column, self.source_column, kept))
        self.line_of_row = self.line

    def said(self, part):
        if not isinstance(part, NewName):
            return part
        if part.number is None:
            self.count += 1
            part.number = self.count
        return f"{self.prefix}{part.number}"

    def add_piece(self, piece):
        if piece is OPENING and self.after_atom:
            self.add_piece(NO_LABEL)
        self.add_edge()
        self.add_row(0)
        self.add("".join(map(self.said, piece.parts)))
        self.edge, self.after_atom = True, piece.is_atom

    def add_token(self, at, token):
        if at in self.edits.openings and self.after_atom:
            self.add_piece(NO_LABEL)
        if self.edge:
            self.add_edge()
        if self.column != self.source_column or self.line_of_row == self.line:
            self.add_row(1)
        self.add(self.text[token.start : token.end])
        self.edge, self.after_atom = False, at in self.edits.values

    def write(self):
        """The translation and its places."""
        end = 0
        for at, token in enumerate(self.edits.tokens):
            self.add_gap(self.text[end : token.start])
            for piece in self.edits.front[at]:
                self.add_piece(piece)
            if at in self.edits.in_place:
                self.edge = True
                for piece in self.edits.in_place[at]:
                    self.add_piece(piece)
            else:
                self.add_token(at, token)
            for piece in self.edits.back[at]:
                self.add_piece(piece)
            self.source_column += token.end - token.start
            end = token.end
        self.add(self.text[end:])
        return "".join(self.written), self.places
