"""What is open, and which names are declared, at a place of a text: read leniently, since the text is refused from there on."""
import collections
import re

TOKEN = re.compile(r"%[^\n]*|/\*|\[\]|'(?:[^'\\\n]|\\.)*'|[A-Z]\w*|[a-z]\w*|\d+|[^\s\w]", re.ASCII)
BLANKS = re.compile(r"[ \t]*")
# A word, a sign or a quoted atom, with its place from 0 and from 1:1, and by how much its line is indented.
Token = collections.namedtuple("Token", "word at line column indent")
OPENING = ("local", "proc", "fun", "if", "case", "thread", "try", "raise")
# The words behind which a statement declares nothing any more, and those behind which it declares what stands there.
BODY = ("in", "then", "}")
PATTERN = ("of", "[]", "catch")


class Opened:
    """A statement or a value that was opened: its word, its place, by how much its line is indented, the names that it declares, and whether names
    that come are declared. It is headless as long as the name of a procedure or of a function is to come."""

    def __init__(self, word, line, column, indent):
        self.word, self.line, self.column, self.indent, self.names = word, line, column, indent, []
        self.declares, self.is_headless = word == "local", word in ("proc", "fun")

    def place(self):
        return f"{self.line}:{self.column}"

    def go_on(self, word, last):
        """What a word says of this statement, behind the last one."""
        if word in PATTERN or word in ("else", "finally"):
            self.names, self.declares = [], word in PATTERN
        elif last == "{" and self.is_headless:
            self.declares, self.is_headless = True, False
        elif word in BODY:
            self.declares = False
        elif self.declares and word[0].isupper():
            self.names.append(word)


class Scopes:
    """`open` are the statements around the end of the text that is given, and `ended` those that have ended, each with its end."""

    def __init__(self, before):
        self.open, self.ended = [], []
        last = ""
        for word, _, *place in tokens(before):
            if word in OPENING:
                self.open.append(Opened(word, *place))
            elif word == "end" and self.open:
                self.ended.append((self.open.pop(), Opened(word, *place)))
            elif self.open:
                self.open[-1].go_on(word, last)
            last = word

    def declared(self):
        """The names that are declared here."""
        return {name for opened in self.open for name in opened.names}

    def last_declared(self, name):
        """The statement that declared a name last and has ended, with its end."""
        return next((pair for pair in reversed(self.ended) if name in pair[0].names), None)

    def odd_end(self):
        """What tells of the first end that begins a line which is indented otherwise than the one of the statement that it ends."""
        for opened, end in self.ended:
            if end.column == end.indent + 1 and end.indent != opened.indent:
                return f"; the end at {end.place()} closes the {opened.word} of {opened.place()}"
        return ""


def tokens(text):
    """The tokens of a text, as far as there are any; comments are left out."""
    at = seen = start = 0
    line = 1
    while match := TOKEN.search(text, at):
        word, at = match[0], match.end()
        if word == "/*":
            close = text.find("*/", at)
            at = len(text) if close < 0 else close + 2
        elif word[0] != "%":
            line += text.count("\n", seen, match.start())
            start = text.rfind("\n", seen, match.start()) + 1 or start
            seen = match.start()
            yield Token(word, seen, line, seen - start + 1, len(BLANKS.match(text, start)[0]))
