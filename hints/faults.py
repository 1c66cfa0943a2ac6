"""The faults of a text that is refused, the first of which is the program's: what each may mean, and where it stands.

The others are found by mending the one before it and asking the program again, so each of them is a refusal of the program, too. A fault is told only where
what mends it is known, or where it is the last; and a refusal behind a repair counts only where it stands apart from what was mended."""
import itertools
import os
import re
import subprocess

from copy_of import Copy, line_and_column
from layout import Layout
from repairs import at_depth, quoted
from scopes import Scopes
from slips import named_slip

BOOK = " (docs/from-the-book.md)"
BUILT_IN = {"Browse", "Wait", "NewCell", "Exchange", "NewPort", "Send", "NewCellAt"}
# Names of the book's library.
LIBRARY = set("Append Map Length Reverse Filter FoldL FoldR ForAll Nth Member Max Min Abs Sort Merge List NewLock NewName Show Delay".split())
MOST = 5
# A longer text is looked at around the place alone, and read no further.
MOST_BYTES, WINDOW = 65_536, 2_000
PATIENCE = 10  # seconds for one answer of the program


class Fault:
    """A refusal: its place in the text that was read, what is told, and the text without it, or None."""

    def __init__(self, at, told, mended, ends_a_scope=False):
        self.at, self.told, self.mended, self.ends_a_scope = at, told, mended, ends_a_scope


def place(text, answer):
    """How many bytes stand before the place of a refusal, or None."""
    byte = re.match(r"refused byte (\d+) ", answer)
    if byte:
        return int(byte[1])
    found = re.match(r"refused (\d+):(\d+) ", answer)
    if not found:
        return None
    lines = text.split("\n")[: int(found[1]) - 1]
    return min(len(text), sum(len(line) + 1 for line in lines) + int(found[2]) - 1)


def ask(text):
    """The refusal of a text by the program, an empty one where it is taken, or None where there is no program to ask."""
    program = os.environ.get("OZ_PROGRAM")
    if not program:
        return None
    try:
        done = subprocess.run([program, "--steps", "1", "central"], input=text.encode("latin-1"), capture_output=True, timeout=PATIENCE)
    except (OSError, subprocess.TimeoutExpired):
        return None
    last = done.stdout.decode(errors="replace").rstrip("\n").split("\n")[-1]
    return last if last.startswith("refused ") else ""


def is_one_off(name, other):
    """Whether two names differ in the size of letters alone, or in one letter: changed, more, or two that change places."""
    short, long = sorted((name, other), key=len)
    if name.lower() == other.lower():
        return True
    if len(long) == len(short) + 1:
        return any(long[:at] + long[at + 1 :] == short for at in range(len(long)))
    differ = [at for at, (one, two) in enumerate(zip(name, other)) if one != two] if len(name) == len(other) else [0, 2, 4]
    swapped = len(differ) == 2 and name[differ[0]] == other[differ[1]] and name[differ[1]] == other[differ[0]]
    return len(differ) == 1 and len(name) > 2 or swapped


def declared_around(copy, *names):
    """A copy in which a local around all declares these names."""
    end = len(copy.text)
    return copy.put(end, end, "\nend").put(0, 0, f"local {' '.join(dict.fromkeys(names))} in ")


def in_body(copy, at, name):
    """A body of a procedure or a function that declares before an `in`."""
    head = re.search(r"(?:\b(fun|proc)\s*\{[^{}]*\}|\b(?:then|else|thread|try))(?:\s+[A-Z]\w*)*\s*\Z", copy.text[:at])
    if not head:
        return None
    ending = at_depth(copy.text, at, ("in",))
    close = ending and at_depth(copy.text, ending.at + 2, ("end", "else", "[]", "elseif", "catch", "finally"))
    if not close:
        return None
    if head[1] == "fun":
        told = f"names before the in of a body are declared by a local, and a function with statements is a procedure: proc {{F ?R}} local {name} in .. R = E end end"
        return Fault(at, told + BOOK, None)
    where = "proc {P}" if head[1] else copy.text[head.start() : at].split()[0]
    names = re.findall(r"(?<![\w.])([A-Z]\w*)\s*=(?!=)", copy.text[at : ending.at], re.ASCII) or copy.text[at : ending.at].split()
    told = f"names before the in of a body are declared by a local: {where} local {name} in {name} = E .. end"
    local = f"local {' '.join(dict.fromkeys(names))} in "
    start, said = (at, local) if "=" in copy.text[at : ending.at] else (at, "local ")
    mended = copy.put(close.at, close.at, "end ")
    if said == local:
        mended = mended.blank(ending.at, ending.at + 2)
    return Fault(at, told + BOOK, mended.put(start, start, said))


def undeclared(copy, at):
    """The name, where it was declared before, and a declared name that is like it."""
    before = copy.text[:at]
    name = re.compile(r"\w+", re.ASCII).match(copy.text, at)[0]
    scopes = Scopes(before)
    mended = declared_around(copy, name)
    body = in_body(copy, at, name) if len(copy.text) <= MOST_BYTES else None
    if body:
        return body
    ended = scopes.last_declared(name)
    if ended:
        odd = scopes.odd_end()
        told = f"{name} was declared by the {ended[0].word} at {ended[0].place()}, which has ended at {ended[1].place()}{odd}"
        # What else it declared is gone, too, and an end behind it may be the one too many.
        mended = declared_around(copy, name, *ended[0].names)
        return Fault(at, told + (": is an end too many?" if odd else ""), None if odd else mended, ends_a_scope=True)
    if name in BUILT_IN:
        return Fault(at, f"{name} is built in where it stands first in a call alone: {{{name} ..}}", mended)
    if name in LIBRARY:
        return Fault(at, f"{name} is of the book's library, and not built in here: it is written out, as in docs/from-the-book.md", mended)
    like = sorted(other for other in scopes.declared() | BUILT_IN if is_one_off(name, other))
    if like:
        return Fault(at, f"nothing around this place declares {name}; is it {' or '.join(like)}?", mended)
    return Fault(at, f"nothing around this place declares {name}: local {name} in .. end does", mended)


def goes_further(answer, copy, at):
    """Whether a text with this refusal, or none, was read further than to a place."""
    if not answer:
        return answer is not None
    reached = place(copy.text, answer)
    return reached is not None and copy.origin[reached] > at


def no_else_and_no_end(copy, at, answer):
    """An `if` or a `case` that has neither, where an `else` is wanted."""
    if not re.search(r"(or|expected) else$", answer):
        return None
    for finding in Layout(copy.text).found:
        form = re.compile(r"if\b|case\b").match(copy.text, finding.at)
        if form is None or finding.said != " end" or finding.token.at > at:
            continue
        said = " else skip end" if "statement" in answer else " else 0 end"
        mended = copy.put(finding.start, finding.stop, said)
        answered = ask(mended.text)
        if answered is None or goes_further(answered, mended, copy.origin[at]):
            where = ":".join(map(str, line_and_column(copy.text, finding.at)))
            return Fault(finding.at, f"the {form[0]} of {where} has no else and no end: {finding.told}", mended)
    return None


def of_layout(copy, at, answer):
    """What is not closed, or closed too often, as the lines stand; where there is a program, only what helps it on when it is mended."""
    for token, findings in itertools.groupby(sorted(Layout(copy.text).found, key=lambda it: it.token.at), key=lambda it: it.token):
        findings = list(findings)
        one, told = findings[0], "; ".join(finding.told for finding in findings)
        if token.at <= at:
            mended = copy.put(one.start, one.stop, "".join(finding.said for finding in findings))
        elif one.at < at and one.said in ")}]" and one.said in answer:
            # It is noticed by a later word, and by the program here.
            told = told.replace(f"before {token.line}:{token.column}", "before " + ":".join(map(str, line_and_column(copy.text, at))))
            mended = copy.put(at, at, one.said)
        else:
            continue
        said = ask(mended.text)
        if said is None or goes_further(said, mended, copy.origin[at]):
            return Fault(one.at, told, mended if said is not None else None)
    return None


def open_statements(copy, at, answer):
    """What is not closed at the end of the text, or that there is an end too many."""
    rest, scopes = copy.text[at:], Scopes(copy.text[:at])
    if not rest.strip() and scopes.open and "expected" in answer:
        still = ", ".join(f"{opened.word} at {opened.place()}" for opened in reversed(scopes.open))
        if re.search(r"[\w)}] ?% ?[\w(]+[^\n]*\s*\Z", copy.text[:at]):
            still += "; % begins a comment, and X mod Y is the rest of a division"
        end = len(copy.text)
        mended = copy.put(end, end, " end" * len(scopes.open))
        return Fault(at, f"the text ends, and these have no end yet: {still}{scopes.odd_end()}", mended)
    if re.match(r"end\b", rest) and answer.endswith("or the end of the text"):
        return Fault(at, f"an end is too many: all that was open has ended before{scopes.odd_end()}", None, ends_a_scope=True)
    return None


def open_quote(copy, at, answer):
    """A quote that is not closed in its line, wherever the program notices it."""
    start = copy.text.rfind("\n", 0, at) + 1
    end = copy.text.find("\n", at)
    line = copy.text[start : end if end >= 0 else len(copy.text)]
    bare = re.sub(r"'(?:[^'\\]|\\.)*'|%.*", lambda it: " " * len(it[0]), line)
    if not re.search("bad character|open quote", answer) or "'" not in bare:
        return None
    quote = start + bare.index("'")
    if quote > at:
        return None
    told = f"the quote of {':'.join(map(str, line_and_column(copy.text, quote)))} is not closed in its line: 'two words'"
    return Fault(quote, told, quoted(copy, quote))


def slip(copy, at, answer):
    found = named_slip(copy.text[at : at + WINDOW], answer, copy.text[max(0, at - WINDOW) : at])
    if not found:
        return None
    told, repair = found
    return Fault(at, told + BOOK, repair(copy, at) if repair and len(copy.text) <= MOST_BYTES else None)


def explain(copy, answer):
    """The fault that a refusal is, or None where the refusal has no place."""
    at = place(copy.text, answer)
    if at is None:
        return None
    if answer.endswith(" undeclared"):
        return undeclared(copy, at)
    if len(copy.text) > MOST_BYTES:
        return slip(copy, at, answer) or Fault(at, None, None)
    ways = [open_quote, slip, of_layout, open_statements] if re.search("bad character|open quote", answer) else [open_quote, no_else_and_no_end, of_layout, slip, open_statements]
    for way in ways:
        found = way(copy, at, answer)
        if found:
            return found
    return Fault(at, None, None)


def in_given(told, copy, text):
    """What is told of a copy, with its places as they are in the text that was given."""
    def given(found):
        lines = copy.text.split("\n")[: int(found[1]) - 1]
        at = sum(len(line) + 1 for line in lines) + int(found[2]) - 1
        return ":".join(map(str, line_and_column(text, copy.origin[min(at, len(copy.text))])))
    return told and re.sub(r"\b(\d+):(\d+)\b", given, told)


def faults(text, answer):
    """The faults of a text, the first by this refusal: the place of each in the text, its refusal, and what is told, which may be None."""
    copy, found, scope_ended = Copy(text), [], False
    while answer and len(found) < MOST:
        fault = explain(copy, answer)
        if fault is None or found and (fault.told is None or copy.origin[fault.at] in {at for at, _, _ in found}):
            break
        if found and fault.ends_a_scope and scope_ended:
            break
        scope_ended |= fault.ends_a_scope
        found.append((copy.origin[fault.at], answer, in_given(fault.told, copy, text)))
        if fault.mended is None or len(text) > MOST_BYTES:
            break
        reached = copy.origin[place(copy.text, answer)]
        copy = fault.mended
        answer = ask(copy.text)
        if answer and not goes_further(answer, copy, reached):
            break
    return found
