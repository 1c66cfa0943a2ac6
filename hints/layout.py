"""What is not closed, or closed once too often, as the lines of a text stand: an `end` that begins its line closes what it stands under."""
import collections

from scopes import OPENING, tokens

BRACKETS = {"(": ")", "{": "}", "[": "]"}
# Words that stand in no bracket unless what they belong to does.
BETWEEN = ("then", "else", "elseif", "of", "catch", "finally", "end")
# Words that go on with a form where they begin a line under it.
GOES_ON = ("end", "else", "elseif", "elsecase", "[]", "then", "of", "in", "catch", "finally", "do", "|")
MIDDLE = {"else": ("if", "case"), "[]": ("case",), "catch": ("try",), "finally": ("try",), "elseif": ("if",)}

# What is told, where a word is wanting or too many, the tokens at which it was noticed, and what mends it: the place, the next one that stays, and what
# stands between.
Finding = collections.namedtuple("Finding", "told at token start stop said")


class Opened:
    """A form or a bracket that is open: its token, and whether an `if` stands behind its `else`."""

    def __init__(self, token):
        self.token, self.word, self.indent, self.second = token, token.word, token.indent, None

    def named(self):
        return f"the {self.word} of {place(self.token)}"


def place(token):
    return f"{token.line}:{token.column}"


def is_first(token):
    return token.column == token.indent + 1


class Layout:
    """The findings of a text in their order."""

    def __init__(self, text):
        self.open, self.found, self.last = [], [], None
        for token in tokens(text):
            self.read(token)
            self.last = token
        self.still_open = [opened for opened in self.open if opened.word not in BRACKETS]

    def read(self, token):
        self.close_brackets(token)
        self.leave(token)
        if token.word in OPENING or token.word in BRACKETS:
            if self.last and self.last.word == "else" and token.word in ("if", "case") and self.open and self.last.line == token.line:
                self.open[-1].second = token
            self.open.append(Opened(token))
        elif token.word in BRACKETS.values():
            self.close_bracket(token)
        elif token.word == "end":
            self.close_form(token)
        elif token.word in MIDDLE and is_first(token):
            self.go_on(token)

    def close_brackets(self, token):
        """Brackets of lines before, where this token begins a line that is indented no more than theirs; and all before a word that stands in none."""
        while self.open and self.open[-1].word in BRACKETS:
            opened = self.open[-1]
            left = is_first(token) and token.line > opened.token.line and token.indent <= opened.indent
            if token.word in BRACKETS.values() or not (left or token.word in BETWEEN):
                return
            closing = BRACKETS[opened.word]
            told = f"the {opened.word} of {place(opened.token)} has no {closing} before {place(token)}"
            self.note(told, opened, token, closing)
            self.open.pop()

    def leave(self, token):
        """Forms whose `end` has not come where a line begins under them, or further left, with something else."""
        if not is_first(token) or token.word in GOES_ON or token.word in BRACKETS.values():
            return
        while self.open and self.open[-1].word not in BRACKETS and self.open[-1].token.line < token.line and self.open[-1].indent >= token.indent:
            opened = self.open.pop()
            self.note(f"{opened.named()} has no end before {place(token)}, which stands {'under it' if opened.indent == token.indent else 'left of it'}",
                      opened, token, "end")

    def close_bracket(self, token):
        at = next((at for at in range(len(self.open) - 1, -1, -1) if BRACKETS.get(self.open[at].word) == token.word), None)
        if at is None:
            told = f"the {token.word} of {place(token)} closes nothing: no bracket of this kind is open"
            self.found.append(Finding(told, token.at, token, token.at, token.at + 1, " "))
            return
        for opened in reversed(self.open[at + 1 :]):
            self.note(f"{opened.named()} has no {closing(opened)} before the {token.word} of {place(token)}", opened, token, closing(opened))
        del self.open[at:]

    def close_form(self, token):
        if not self.open:
            return
        outer = self.stands_under(token)
        if outer is None:
            if is_first(token) and token.line > self.open[-1].token.line and token.indent > self.open[-1].indent and self.has_company(token):
                told = f"the end of {place(token)} is too many: it stands under nothing that is open, and closes {self.open[-1].named()}"
                self.found.append(Finding(told, token.at, token, token.at, token.at + 3, "   "))
                return
            self.open.pop()
            return
        for opened in reversed(self.open[outer + 1 :]):
            self.note(self.story(opened, token, self.open[outer]), opened, token, closing(opened))
        del self.open[outer:]

    def has_company(self, token):
        """Whether a form that has ended stood where this `end` does, so that the layout means something."""
        return self.last is not None and self.last.word == "end" and self.last.indent == token.indent

    def stands_under(self, token):
        """Which open form, but the last, this first word of a line stands under, and all behind it are indented more."""
        if not is_first(token) or self.open[-1].indent == token.indent:
            return None
        for at in range(len(self.open) - 1, -1, -1):
            if self.open[at].indent < token.indent:
                return None
            if self.open[at].indent == token.indent and self.open[at].word not in BRACKETS:
                return at if at < len(self.open) - 1 else None
        return None

    def go_on(self, token):
        """An `else` and its like under an outer form that takes it."""
        outer = self.stands_under(token) if self.open else None
        while outer is not None and self.open[outer].word not in MIDDLE[token.word]:
            outer = next((at for at in range(outer - 1, -1, -1) if self.open[at].indent == token.indent), None)
        if outer is None:
            return
        for opened in reversed(self.open[outer + 1 :]):
            told = f"{opened.named()} has no end of its own: the {token.word} of {place(token)} stands under {self.open[outer].named()}"
            self.note(told, opened, token, closing(opened))
        del self.open[outer + 1 :]

    def story(self, opened, token, outer):
        end = f"the end of {place(token)} stands under it and closes {opened.named()}"
        if opened.second is not None and opened.word == "if":
            second = f"the {opened.second.word} of {place(opened.second)} behind the else has an end, and {opened.named()} has none"
            return f"{second}: {outer.named()} is open here; {end}"
        return f"{outer.named()} is open here; {end}"

    def note(self, told, opened, token, closing):
        behind = self.last.at + len(self.last.word)
        self.found.append(Finding(told, opened.token.at, token, behind, behind, closing if closing in BRACKETS.values() else " " + closing))


def closing(opened):
    return BRACKETS.get(opened.word, "end")
