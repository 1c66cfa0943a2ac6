"""Texts with sugar, drawn at random: they use each form of it, and most of what they do goes wrong sooner or later. Where two threads race
by it, `central` still makes the same run of a text and of its kernel form."""
import random
import re

OPERATORS = ("+", "-", "*", "div", "mod", "=<", "<", ">=", ">", "==", "\\=")
NAMES = ("A", "B", "F", "G", "X", "Y", "Z")
FIRST = ("X = 1", "Y = a", "Z = f(1 a:2)", "A = 1|2|nil", "fun {F X} X end", "fun {G X Y} X + Y end", "B = true")
BUILT_IN = {"Browse": 1, "Wait": 1, "NewCell": 2, "Exchange": 3}


def side_by_side(parts):
    """Values behind one another, each with what stands directly before it. An atom is no label of brackets behind it, so it gets its own."""
    shown = []
    for before, value in reversed(parts):
        if shown and shown[0].startswith("(") and re.search(r"[a-z'][a-z]*$", value):
            value = f"({value})"
        shown.insert(0, before + value)
    return " ".join(shown)


class Sugared:
    """A drawn text. `scope` are the names that are declared at a place, and `depth` is how much may still stand within it."""

    def __init__(self, seed):
        self.draw = random.Random(seed)
        scope = frozenset(NAMES)
        first = " ".join(self.draw.sample(FIRST, self.draw.randint(3, len(FIRST))))
        self.text = f"local {' '.join(NAMES)} in {first} {self.sequence(scope, 4)} end"

    def variable(self, scope):
        return self.draw.choice(sorted(scope))

    def formals(self):
        return self.draw.sample(("A", "B", "X", "Y", "Z"), self.draw.randint(0, 3))

    # ---- values

    def simple(self, scope):
        constants = ("0", "1", "2", "7", "~1", "a", "nil", "true", "false", "'|'")
        return self.draw.choice([self.variable(scope), self.variable(scope), self.draw.choice(constants)])

    def primary(self, scope, depth):
        if depth <= 0 or self.draw.random() < 0.4:
            return self.simple(scope)
        made = (self.record, self.call_of_value, self.callable, self.bracketed, self.selection)
        return self.draw.choice(made)(scope, depth - 1)

    def value(self, scope, depth):
        if depth <= 0 or self.draw.random() < 0.45:
            return self.primary(scope, depth)
        return self.draw.choice((self.operation, self.list, self.chosen, self.matched))(scope, depth - 1)

    def operation(self, scope, depth):
        return f"{self.primary(scope, depth)} {self.draw.choice(OPERATORS)} {self.primary(scope, depth)}"

    def list(self, scope, depth):
        return "|".join(self.primary(scope, depth) for _ in range(self.draw.randint(2, 4)))

    def chosen(self, scope, depth):
        return f"if {self.value(scope, depth)} then {self.value(scope, depth)} else {self.value(scope, depth)} end"

    def matched(self, scope, depth):
        return f"{self.clauses(scope, depth, self.value)} else {self.value(scope, depth)} end"

    def bracketed(self, scope, depth):
        return f"({self.value(scope, depth)})"

    def selection(self, scope, depth):
        return f"{self.primary(scope, depth)}.{self.draw.choice(['a', '1', '2', self.variable(scope)])}"

    def record(self, scope, depth):
        placed = [("", self.value(scope, depth)) for _ in range(self.draw.randint(0, 2))]
        features = self.draw.sample(("a", "b", "~1"), self.draw.randint(0, 2))
        fields = placed + [(feature + ":", self.value(scope, depth)) for feature in features]
        self.draw.shuffle(fields)
        return f"{self.draw.choice(('f', 'g'))}({side_by_side(fields)})"

    def callable(self, scope, depth):
        formals = self.formals()
        inside = scope | set(formals)
        if self.draw.random() < 0.5:
            return f"fun {{$ {' '.join(formals)}}} {self.value(inside, depth)} end"
        return f"proc {{$ {' '.join(formals)}}} {self.sequence(inside, depth)} end"

    def call_of_value(self, scope, depth):
        return self.call(scope, depth, ("NewCell", "Exchange"), 1)

    def call(self, scope, depth, built_in, results):
        name = self.draw.choice([*built_in, self.variable(scope), self.variable(scope)])
        count = BUILT_IN[name] - results if name in BUILT_IN else self.draw.randint(0, 3)
        return f"{{{name} {side_by_side([('', self.value(scope, depth)) for _ in range(count)])}}}"

    # ---- statements

    def sequence(self, scope, depth):
        return " ".join(self.statement(scope, depth) for _ in range(self.draw.randint(1, 3)))

    def statement(self, scope, depth):
        if depth <= 0:
            return f"{self.variable(scope)} = {self.simple(scope)}"
        made = (self.tell, self.tell, self.browse, self.browse, self.call_of_statement, self.declared, self.branches, self.cases, self.function,
                self.thread, self.handled, self.raised)
        return self.draw.choice(made)(scope, depth - 1)

    def tell(self, scope, depth):
        return f"{self.variable(scope)} = {self.value(scope, depth)}"

    def browse(self, scope, depth):
        return f"{{Browse {self.value(scope, depth)}}}"

    def call_of_statement(self, scope, depth):
        return self.call(scope, depth, BUILT_IN, 0)

    def declared(self, scope, depth):
        names = self.draw.sample(NAMES, self.draw.randint(1, 3))
        return f"local {' '.join(names)} in {self.sequence(scope | set(names), depth)} end"

    def branches(self, scope, depth):
        return f"if {self.value(scope, depth)} then {self.sequence(scope, depth)} else {self.sequence(scope, depth)} end"

    def cases(self, scope, depth):
        return f"{self.clauses(scope, depth, self.sequence)} else {self.sequence(scope, depth)} end"

    def function(self, scope, depth):
        formals = self.formals()
        return f"fun {{{' '.join([self.variable(scope), *formals])}}} {self.value(scope | set(formals), depth)} end"

    def thread(self, scope, depth):
        return f"thread {self.sequence(scope, depth)} end"

    def handled(self, scope, depth):
        body, handler, last = (self.sequence(inside, depth) for inside in (scope, scope | {"E"}, scope))
        return f"try {body}" + self.draw.choice((f" catch E then {handler}", "", f" catch E then {handler}")) + f" finally {last} end"

    def raised(self, scope, depth):
        return f"raise {self.value(scope, depth)} end"

    def clauses(self, scope, depth, within):
        patterns = ((), "a"), ((), "1"), (("H", "T"), "H|T"), (("X",), "f(X)"), (("Y", "X"), "g(b:X Y)"), (("Z", "A"), "f(Z a:A)")
        made = []
        for _ in range(self.draw.randint(1, 3)):
            names, pattern = self.draw.choice(patterns)
            made.append(f"{pattern} then {within(scope | set(names), depth)}")
        return f"case {self.value(scope, depth)} of {' [] '.join(made)}"
