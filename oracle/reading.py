"""Reads Kernel Oz: `read(text)` is the program of a text, as docs/language.md has its grammar. A text that is none is `Unreadable`; that
its first fault is told as `oz` tells it is not promised, and limits of sizes are not known here."""
import re

from statements import Statement, built_in, call, caught, choice, in_order, local, raising, sequence, tell, thread
from sugar import Expansion

RESERVED = set(
    """skip local in end if then else case of thread at try catch raise proc div mod andthen attr choice class cond declare define
    dis elsecase elseif export fail feat finally from fun functor import lock meth not or orelse prepare prop require self
    unit""".split()
)
# The names that are built in, and how many arguments each takes.
BUILT_IN = {"Browse": 1, "Wait": 1, "NewCell": 2, "Exchange": 3, "NewPort": 2, "Send": 2, "NewCellAt": 3}
TOKEN = re.compile(
    r"(?P<variable>[A-Z]\w*)|(?P<word>[a-z]\w*)|'(?P<quoted>(?:[^'\\]|\\.)*)'|(?P<integer>~?\d+)"
    r"|(?P<sign>\[\]|==|\\=|=<|>=|[=(){}$:.|+\-*<>])",
    re.ASCII,
)


class Unreadable(Exception):
    """A text is no program: what is wrong, and how many characters stand before it."""


def tokens(text):
    """The tokens as kinds with their texts, an end behind them, the place of each, and the one behind it."""
    found, places, ends, at = [], [], [], 0
    while at < len(text):
        if text.startswith("/*", at):
            at = after_comment(text, at)
        elif text[at] == "%":
            at += len(text[at:].split("\n")[0])
        elif text[at] in "\t\n\v\f\r ?":
            at += 1
        else:
            match = TOKEN.match(text, at)
            if not match:
                raise Unreadable("no token begins here", at)
            found.append(token(match.lastgroup, match.group(match.lastgroup)))
            places.append(at)
            at = match.end()
            ends.append(at)
    return found + [("end", "")], places + [len(text)], ends


def token(kind, said):
    if kind == "integer":
        return kind, int(said.replace("~", "-"))
    if kind == "quoted":
        return "atom", re.sub(r"\\(.)", lambda escape: {"n": "\n"}.get(escape[1], escape[1]), said)
    if kind == "word" and said not in RESERVED:
        return "atom", said
    return kind, said


def after_comment(text, at):
    """The place behind a comment; comments nest."""
    depth = 0
    for mark in re.compile(r"/\*|\*/").finditer(text, at):
        depth += 1 if mark[0] == "/*" else -1
        if depth == 0:
            return mark.end()
    raise Unreadable("a comment is open", at)


class Name(str):
    """A name that stands in a text, with how many characters stand before it. Names that sugar makes have no place."""

    def __new__(cls, name, place):
        made = super().__new__(cls, name)
        made.place = place
        return made


class Reader:
    """Reads a text. `declared` has the names that are declared around the place, each with its name in the program, where no name hides
    another; `statements` is where each statement begins."""

    def __init__(self, text):
        (self.tokens, self.places, self.ends), self.at, self.statements = tokens(text), 0, []
        self.expansion, self.hiding, self.made = Expansion(), 0, []

    def fault(self, wanted):
        """That something else stands at the token read last."""
        return Unreadable(wanted, self.places[self.at - 1])

    def next(self, *kinds):
        """Takes the next token, of one of these kinds where any is given."""
        kind, said = self.tokens[self.at]
        self.at += 1
        if kind == "end" or (kinds and kind not in kinds):
            raise self.fault(" or ".join(kinds or ("a statement",)) + " is missing")
        return kind, Name(said, self.places[self.at - 1]) if kind == "variable" else said

    def stands(self, *words):
        """Whether one of these words or signs comes next."""
        kind, said = self.tokens[self.at]
        return kind in ("word", "sign") and said in words

    def takes(self, said):
        """Takes this word or sign, if it comes next."""
        taken = self.stands(said)
        self.at += taken
        return taken

    def expect(self, *words):
        for said in words:
            if not self.takes(said):
                self.at += 1
                raise self.fault(f"{said} is missing")

    # ---- names

    def variable(self, declared):
        """Takes a variable that is used, and gives its name in the program."""
        name = self.next("variable")[1]
        if name not in declared:
            raise self.fault(f"{name} is undeclared")
        return Name(declared[name], name.place)

    def names(self, closing):
        """Takes the variables up to this sign or word."""
        found = []
        while not self.takes(closing):
            found.append(self.next("variable")[1])
        return found

    def declare(self, declared, names):
        """What is declared where these names are, too, and their names in the program."""
        inside, made = dict(declared), []
        for name in names:
            self.hiding += 1
            inside[name] = Name(f"{name}'{self.hiding}", name.place) if name in inside else name
            made.append(inside[name])
        return inside, tuple(made)

    # ---- statements

    def sequence(self, declared, *closings):
        """Statements up to one of these words, which stays, or up to the end of the text where none is given."""
        start, statements = self.places[self.at], [self.statement(declared)]
        while not (self.stands(*closings) if closings else self.tokens[self.at][0] == "end"):
            statements.append(self.statement(declared))
        if len(statements) > 1:
            return self.placed(sequence(*statements), start)
        return statements[0]

    def placed(self, statement, start):
        """A statement, which stands in the text from this place on up to the token read last."""
        self.made.append((statement, start, self.ends[self.at - 1]))
        return statement

    def body(self, declared, closing):
        """Statements up to this word, which is taken."""
        statements = self.sequence(declared, closing)
        self.expect(closing)
        return statements

    def statement(self, declared):
        start = self.places[self.at]
        self.statements.append(start)
        return self.placed(self.statement_alone(declared), start)

    def statement_alone(self, declared):
        kind, said = self.next("variable", "word", "sign")
        if kind == "word":
            reader = getattr(self, "read_" + said, None)
            if not reader:
                raise self.fault("no statement begins so")
            return reader(declared)
        if said == "{":
            name, is_built_in, values = self.called(declared, 0)
            return self.expansion.held(values, lambda *names: built_in(name, names) if is_built_in else call(name, names))
        if kind != "variable" or said not in declared:
            raise self.fault(f"{said} is undeclared" if kind == "variable" else "no statement begins so")
        self.expect("=")
        return self.expansion.told(Name(declared[said], said.place), self.value(declared))

    def called(self, declared, results):
        """What is called, whether it is built in, and its arguments, of which so many as results are left out."""
        name = self.next("variable")[1]
        values = []
        if name in BUILT_IN and name not in declared:
            values = [self.value(declared) for _ in range(BUILT_IN[name] - results)]
            self.expect("}")
            return name, True, values
        if name not in declared:
            raise self.fault(f"{name} is undeclared")
        while not self.takes("}"):
            values.append(self.value(declared))
        return Name(declared[name], name.place), False, values

    def read_skip(self, declared):
        return sequence()

    def read_local(self, declared):
        inside, names = self.declare(declared, [self.next("variable")[1], *self.names("in")])
        return local(names, self.body(inside, "end"))

    def read_if(self, declared):
        subject = self.value(declared)
        self.expect("then")
        first, second = self.body(declared, "else"), self.body(declared, "end")
        return self.expansion.held((subject,), lambda name: choice(name, first, second))

    def read_case(self, declared):
        subject, clauses = self.clauses(declared, lambda inside: self.sequence(inside, "[]", "else"))
        return self.expansion.matched(subject, clauses, self.body(declared, "end"))

    def read_thread(self, declared):
        place = self.next("integer")[1] if self.takes("at") else None
        return thread(self.body(declared, "end"), place)

    def read_try(self, declared):
        body = self.sequence(declared, "catch", "finally")
        if self.takes("catch"):
            inside, (name,) = self.declare(declared, [self.next("variable")[1]])
            self.expect("then")
            body = caught(body, name, self.sequence(inside, "finally", "end"))
        if self.takes("end"):
            return body
        self.expect("finally")
        return self.expansion.finished(body, self.body(declared, "end"))

    def read_raise(self, declared):
        raised = self.value(declared)
        self.expect("end")
        return self.expansion.held((raised,), raising)

    def read_proc(self, declared):
        self.expect("{")
        name = self.variable(declared)
        return tell(name, self.procedure(declared))

    def read_fun(self, declared):
        self.expect("{")
        name = self.variable(declared)
        return self.expansion.told(name, self.function(declared))

    # ---- values

    def value(self, declared):
        start = self.places[self.at]
        value = self.value_alone(declared)
        self.expansion.places.setdefault(id(value), (value, start, self.ends[self.at - 1]))
        return value

    def value_alone(self, declared):
        if self.takes("if"):
            subject = self.value(declared)
            self.expect("then")
            chosen = self.value(declared)
            self.expect("else")
            return "if", subject, chosen, self.closed(declared, "end")
        if self.takes("case"):
            subject, clauses = self.clauses(declared, self.value)
            return "case", subject, clauses, self.closed(declared, "end")
        first = self.primary(declared)
        for sign in ("+", "-", "*", "div", "mod", "=<", "<", ">=", ">", "==", "\\="):
            if self.takes(sign):
                return "operation", sign, first, self.primary(declared)
        return self.list_from(first, declared)

    def closed(self, declared, closing):
        """A value, with the word or sign behind it."""
        value = self.value(declared)
        self.expect(closing)
        return value

    def list_from(self, first, declared):
        """A value, or a list whose first element it is."""
        elements = [first]
        while self.takes("|"):
            elements.append(self.primary(declared))
        made = elements.pop()
        for element in reversed(elements):
            made = "record", "|", ((1, element), (2, made))
        return made

    def primary(self, declared):
        value = self.first_of_primary(declared)
        while self.takes("."):
            kind, said = self.next("variable", "atom", "integer")
            if kind == "variable" and said not in declared:
                raise self.fault(f"{said} is undeclared")
            value = "selection", value, (kind, Name(declared[said], said.place) if kind == "variable" else said)
        return value

    def first_of_primary(self, declared):
        """A primary without the selections behind it."""
        if self.takes("{"):
            name, is_built_in, values = self.called(declared, 1)
            return "built in" if is_built_in else "call", name, values
        if self.takes("("):
            return "brackets", self.closed(declared, ")")
        if self.stands("proc", "fun"):
            reading = self.function if self.stands("fun") else self.procedure
            self.next()
            self.expect("{", "$")
            return reading(declared)
        kind, said = self.next("integer", "atom", "variable")
        if kind == "atom":
            return self.record(said, declared)
        if kind == "variable":
            self.at -= 1
            said = self.variable(declared)
        return kind, said

    def procedure(self, declared):
        """A procedure's formals and its body."""
        inside, formals = self.declare(declared, self.names("}"))
        return "procedure", formals, self.body(inside, "end")

    def function(self, declared):
        """A function's formals and its value."""
        inside, formals = self.declare(declared, self.names("}"))
        return "function", formals, self.closed(inside, "end")

    def record(self, label, declared):
        """What follows an atom: a record, or an atom where it has no field."""
        fields = self.fields(lambda: self.value(declared)) if self.takes("(") else ()
        return ("record", label, fields) if fields else ("atom", label)

    def fields(self, reading):
        """Fields up to the bracket that closes them, each with its feature."""
        found, count = [], 0
        while not self.takes(")"):
            if self.tokens[self.at][0] in ("atom", "integer") and self.tokens[self.at + 1] == ("sign", ":"):
                feature = self.next("atom", "integer")[1]
                self.expect(":")
            else:
                count += 1
                feature = count
            found.append((feature, reading()))
        return tuple(found)

    def clauses(self, declared, reading):
        """The subject of a `case`, and its patterns with what is read behind each."""
        subject, clauses = self.closed(declared, "of"), []
        while not clauses or self.takes("[]"):
            kind, said, names = self.pattern()
            inside, made = self.declare(declared, [name for _, name in names])
            self.expect("then")
            pattern = ("record", said, tuple(zip([feature for feature, _ in names], made))) if names else (kind, said)
            clauses.append((pattern, reading(inside)))
        self.expect("else")
        return subject, clauses

    def pattern(self):
        """The kind of a pattern, its integer, atom or label, and its variables in the order of their features."""
        kind, said = self.next("variable", "integer", "atom")
        if kind == "variable":
            self.expect("|")
            return "record", "|", ((1, said), (2, self.next("variable")[1]))
        if kind == "atom" and self.takes("("):
            return kind, said, in_order(self.fields(lambda: self.next("variable")[1]))
        return kind, said, ()


def read(text):
    """The program of a text."""
    return Reader(text).sequence({})


def read_with_places(text):
    """The program of a text, and where each of its statements, and those that it stands for, begin and end in the text: by `id`, since they live
    as long as the program. Of what stands around a statement the shortest counts."""
    reader = Reader(text)
    program = reader.sequence({})
    places = {id(statement): place for statement, *place in reader.made}
    for statement, *place in sorted([*reader.made, *reader.expansion.made], key=lambda it: it[2] - it[1]):
        mark(statement, place, places)
    mark(program, [0, len(text)], places)
    return program, places


def mark(statement, place, places):
    """All statements in a statement have this place, where they have none of their own."""
    left = [statement]
    while left:
        found = left.pop()
        places.setdefault(id(found), place)
        left.extend(inner(found))


def inner(statement):
    """The statements that a statement has."""
    if statement.kind == "tell":
        value = statement.parts[1]
        return value[2:3] if value[0] == "procedure" else ()
    return [part for part in statement.parts if isinstance(part, Statement)]


def statement_places(text):
    """How many characters stand before each statement of a text."""
    reader = Reader(text)
    reader.sequence({})
    return reader.statements
