"""How a slip is mended, so that what comes behind it can be read: each function takes a copy of a text and a place of it, and gives a copy in which
the slip is gone, or None where it does not know how. What is mended declares what stood there, and means nothing else."""
import re

from layout import BRACKETS, BETWEEN
from scopes import OPENING, tokens

VARIABLE = re.compile(r"[A-Z]\w*\Z", re.ASCII)


def behind(text, at):
    """The tokens from a place on."""
    return (token._replace(at=token.at + at) for token in tokens(text[at:]))


CLOSING = ("end", *BRACKETS.values())


def at_depth(text, at, words):
    """The next of these words in the form or bracket in which a place stands, or None."""
    depth = 0
    for token in behind(text, at):
        if depth == 0 and token.word in words:
            return token
        if token.word in CLOSING and depth == 0:
            return None
        depth += (token.word in OPENING or token.word in BRACKETS) - (token.word in CLOSING)
    return None


def close_of(text, at):
    """The token that closes the form or bracket in which a place stands, or None."""
    return at_depth(text, at, CLOSING)


def without(*said):
    """A repair that leaves out the word at the place, and puts another one there, if any."""
    put = said[0] if said else None

    def repair(copy, at):
        word = next(behind(copy.text, at), None)
        if word is None or word.at != at:
            return copy.put(at, at + 1, " ") if put is None else None
        return copy.put(at, at + len(word.word), " " * len(word.word) if put is None else put)
    return repair


def two_signs(put):
    """A repair of two signs that stand together."""
    return lambda copy, at: copy.put(at, at + 2, put)


def inserted(put):
    return lambda copy, at: copy.put(at, at, put)


def to_end_of_line(copy, at):
    end = copy.text.find("\n", at)
    return copy.blank(at, len(copy.text) if end < 0 else end)


def to_end_of_value(copy, at):
    """Leaves out what stands from an operator to the end of its value."""
    depth, last = 0, None
    for token in behind(copy.text, at):
        is_closing = token.word in CLOSING
        if depth == 0 and last is not None and ends_value(copy.text, last, token):
            return copy.blank(at, last.at + len(last.word))
        depth += (token.word in OPENING or token.word in BRACKETS) - is_closing
        last = token
    return None


OPERATORS = ("+", "-", "*", "|", "<", ">", "=", "==", "\\", "div", "mod", "andthen", "orelse", "#", ".", ":", "/", "~", "@")


def ends_value(text, last, token):
    """Whether a value that goes on with the last token is over before this one."""
    if token.word in BETWEEN or token.word in BRACKETS.values() or token.word == "[]":
        return True
    if last.word in OPERATORS or token.word in OPERATORS:
        return False
    return not (token.word == "(" and token.at == last.at + len(last.word))


def brackets(before, after):
    """A repair that puts other brackets for these: what stands in them stays."""
    def repair(copy, at):
        close = close_of(copy.text, at + 1)
        if close is None:
            return None
        return copy.put(close.at, close.at + len(close.word), after).put(at, at + 1, before)
    return repair


def form_in_brackets(copy, at):
    """An `if` or a `case` behind an operator stands in brackets."""
    word = next(behind(copy.text, at))
    close = close_of(copy.text, at + len(word.word))
    return close and copy.put(close.at + 3, close.at + 3, ")").put(at, at, "(")


def thread_value(copy, at):
    """`thread E end` as a value is E."""
    close = close_of(copy.text, at + len("thread"))
    if close is None or not copy.text.startswith("thread", at):
        return None
    return copy.put(close.at, close.at + 3, "  )").put(at, at + len("thread"), "(     ")


def nested(word):
    """`elseif` and `elsecase` as an `else` with another form in it, which has an `end` of its own."""
    def repair(copy, at):
        close = close_of(copy.text, at + len("else" + word))
        return close and copy.put(close.at, close.at, "end ").put(at, at + len("else" + word), "else " + word)
    return repair


def pattern(copy, at):
    """A pattern that has more than one level is one with the same variables."""
    start = max(found.end() for found in re.finditer(r"\bof\b|\[\]", copy.text[:at + 1])) if re.search(r"\bof\b|\[\]", copy.text[:at + 1]) else None
    stop = re.compile(r"\bthen\b").search(copy.text, at)
    if start is None or stop is None:
        return None
    names = dict.fromkeys(token.word for token in tokens(copy.text[start : stop.start()]) if VARIABLE.match(token.word))
    return copy.put(start, stop.start(), " l(" + " ".join(names) + ") " if names else " a ")


def underscore(copy, at):
    """A variable that nothing uses, in a pattern; and a value elsewhere."""
    opened = re.search(r"(?:\bof|\[\])(?:(?!\bthen\b).)*\Z", copy.text[:at], re.S)
    rest = copy.text[at + 1 :].lstrip()
    if opened:
        return pattern(copy, at)
    return None if rest.startswith("=") else copy.put(at, at + 1, "0")


def upper(copy, at):
    """A name with a lower-case letter is one with an upper-case letter, wherever it stands."""
    name = re.compile(r"[a-z]\w*", re.ASCII).match(copy.text, at)
    if name is None:
        return None
    said = re.sub(rf"(?<![\w'])({name[0]})\b(?![('])", lambda it: it[0].capitalize() if it[0][1:].islower() or len(it[0]) == 1 else it[0][0].upper() + it[0][1:], copy.text)
    return type(copy)(said, copy.origin)


def call(copy, at):
    """F(X) is {F X}, where the place is that of the bracket."""
    name = re.search(r"[A-Z]\w*\Z", copy.text[:at], re.ASCII)
    close = close_of(copy.text, at + 1)
    if not name or close is None:
        return None
    inner = copy.blank(at, at + 1).text
    commas = [at + 1 + found.start() for found in re.finditer(",", inner[at + 1 : close.at])]
    mended = copy.put(close.at, close.at + 1, "}")
    for comma in commas:
        mended = mended.put(comma, comma + 1, " ")
    return mended.put(at, at + 1, " ").put(name.start(), name.start(), "{")


def called_value(copy, at):
    """{{F X} Y} is {F X Y}."""
    close = close_of(copy.text, at + 1)
    return close and copy.put(close.at, close.at + 1, " ").put(at, at + 1, " ")


def quoted(copy, at):
    """A text in double quotes, or an atom whose quote is not closed in its line, is a number. What closes at the end of that line stays."""
    kinds = {'"': r'"[^"\n]*"', "'": r"'[^\n]*?(?=(?:\s*(?:\bend\b|[)}]))*[ \t\r]*(?:\n|\Z))"}
    end = re.compile(kinds[copy.text[at]]).match(copy.text, at)
    return end and copy.put(at, end.end(), "0" + " " * (end.end() - at - 1))


def character(copy, at):
    return copy.put(at, at + 2, "0 ")


def test_sign(copy, at):
    """`=` where a test is wanted is `==`."""
    return copy.put(at, at + 1, "==")


def field_told(copy, at):
    """X.a = E: left of = stands a variable."""
    field = re.compile(r"\.\s*\w+", re.ASCII).match(copy.text, at)
    return field and copy.blank(at, field.end())


def declared_at_once(copy, at):
    """`local X = E in`: the names first, then `in`, and the tell behind it; or an `in` that is not there."""
    name = re.search(r"[A-Z]\w*\s*\Z", copy.text[:at], re.ASCII)
    if not name:
        return None
    ending = at_depth(copy.text, at, ("in",))
    mended = copy.blank(ending.at, ending.at + 2) if ending else copy
    between = mended.text[at : ending.at] if ending else ""
    others = [it for it in re.findall(r"(?<![\w.])([A-Z]\w*)\s*=(?!=)", between, re.ASCII) if it != name[0].strip()]
    said = " ".join(dict.fromkeys([*([name[0].strip()] if ending else []), *others]))
    return mended.put(name.start(), name.start(), f"{said} in " if ending else "in ")


def declared(copy, at):
    """`declare` is a local around what comes behind it."""
    rest = copy.text[at + len("declare") :]
    heads = re.findall(r"(?<![\w.])([A-Z]\w*)\s*=(?!=)|\b(?:proc|fun)\s*\{\s*([A-Z]\w*)", rest, re.ASCII)
    listed = re.match(r"\s*((?:[A-Z]\w*\s+)*)in\b", rest, re.ASCII)
    if listed:
        start, names = at + len("declare") + listed.end(), listed[1].split()
    else:
        first = re.match(r"(?:\s+[A-Z]\w*(?!\w)(?!\s*=))*", rest, re.ASCII)
        start, names = at + len("declare") + first.end(), first[0].split() + [one or other for one, other in heads]
    end = len(copy.text)
    said = " ".join(dict.fromkeys(names))
    return copy.put(end, end, " end").put(at, start, f"local {said} in") if said else None


def else_there(copy, at):
    """An `if` or a `case` without an `else`: that of a statement or of a value, whichever the program takes."""
    return copy.put(at, at, "else skip ")


def else_value(copy, at):
    return copy.put(at, at, "else 0 ")


def loop(copy, at):
    """`for I in A..B do S end` as a form with the same name and body."""
    head = re.compile(r"for\s+([A-Z]\w*)\s+in\b[^\n]*?\bdo\b", re.ASCII).match(copy.text, at)
    return head and copy.put(at, head.end(), f"local {head[1]} in")


def caught(copy, at):
    """`catch P then`: the only variable of the pattern."""
    head = re.compile(r"([^\n]*?)\bthen\b").match(copy.text, at)
    names = dict.fromkeys(token.word for token in tokens(head[1]) if VARIABLE.match(token.word)) if head else ()
    return copy.put(at, at + len(head[1]), next(iter(names), "Caught") + " ") if head and len(names) < 2 else None


def word_before(copy, at):
    """The word before the place is left out."""
    word = re.search(r"\w+\s*\Z", copy.text[:at], re.ASCII)
    return copy.blank(word.start(), at)


def at_most(copy, at):
    """`<=`, of which the place is that of the second sign, is `=<`."""
    return copy.put(at - 1, at + 1, "=<")


def to_close(copy, at):
    """What stands before the bracket that closes is left out."""
    close = close_of(copy.text, at)
    return close and copy.blank(at, close.at)


def lower_call(copy, at):
    """f(X) as a statement is a call of a built-in procedure with one argument."""
    head = re.compile(r"[a-z]\w*\(", re.ASCII).match(copy.text, at)
    close = close_of(copy.text, head.end())
    return close and copy.put(close.at, close.at + 1, ")}").put(at, head.end(), "{Wait l(")


def record_in_braces(copy, at):
    """f{X} is f(X)."""
    start = copy.text.rindex("{", 0, at)
    close = close_of(copy.text, start + 1)
    return close and copy.put(close.at, close.at + 1, ")").put(start, start + 1, "(")
