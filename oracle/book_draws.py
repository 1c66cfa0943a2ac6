"""Texts of the book's language, drawn at random: they use each form of it, and some have slips. The same seed draws the same text."""
import random

NAMES = ("A", "B", "C", "F", "G", "X", "Y", "Z", "V1", "V2", "Va1", "Do", "Get")
LIBRARY = ("Map", "Length", "Append", "Nth", "Max", "List", "ForAll", "Sort", "Not", "Flatten")
BUILT_IN = {"Browse": 1, "Wait": 1, "NewCell": 2, "Exchange": 3, "NewPort": 2, "Send": 2, "NewCellAt": 3}
CONSTANTS = ("0", "1", "2", "~3", "a", "nil", "true", "'b c'", "for", "do", "unit", "&a", "&\\n", '"hi"', '""', '"x\\ty"', "'|'", "'unit'")
OPERATORS = ("+", "-", "*", "div", "mod", "==", "\\=", "=<", "<", ">=", ">", "|", "#", "andthen", "orelse", ":=")
SLIPS = (
    "skip local in end if then else case of thread at try catch finally raise proc fun declare elseif elsecase andthen orelse lock unit "
    "= ( ) { } $ : . | + - =< == [] [ ] # @ ! _ ~ := .. ; X Y Q Map Browse 5 007 a f for do &a & \"s\" \"s 'q' 'q"
).split()
GAPS = (" ",) * 30 + ("\n",) * 6 + ("  ", "\t", "\n\n", " % said\n", " /* said /* and */ said */ ", "?", "/**/")


class Book:
    """A drawn text. What is drawn is a list of tokens; `slips` is how many of these are taken away, doubled or replaced."""

    def __init__(self, seed, slips=0):
        self.draw = random.Random(seed)
        self.unknown = slips > 0 and self.draw.random() < 0.3
        tokens = self.text()
        for _ in range(slips):
            self.slip(tokens)
        self.tokens = tokens
        self.text = "".join(token + self.draw.choice((*GAPS, "") if slips else GAPS) for token in tokens)

    def slip(self, tokens):
        at = self.draw.randrange(len(tokens))
        said = self.draw.choice(SLIPS)
        tokens[at : at + self.draw.randint(0, 1)] = self.draw.choice(([], [said], [said], [tokens[at], tokens[at]]))
        if not tokens:
            tokens.append(said)

    def one(self, *drawn):
        return self.draw.choice(drawn)()

    def many(self, least, most, drawing, *given):
        return [token for _ in range(self.draw.randint(least, most)) for token in drawing(*given)]

    def chance(self, often):
        return self.draw.random() < often

    # ---- the text and bodies

    def text(self):
        scope, depth, made = frozenset(), self.draw.randint(1, 3), []
        if self.chance(0.2):
            made += self.statements(scope, depth)
        for _ in range(self.draw.choice((1, 1, 1, 2, 3))):
            declared, scope = self.declarations(scope, depth)
            made += ["declare", *declared]
            if self.chance(0.5):
                made += ["in", *self.many(0, 3, self.statement, scope, depth)]
        return made + self.many(0, 1, self.statement, scope, depth) if "in" in made[-40:] else made

    def declarations(self, scope, depth):
        """Declarations, and what is declared behind them."""
        names = [self.name() for _ in range(self.draw.randint(1, 4))]
        inside, made = scope | set(names), []
        for name in names:
            made.append(self.declaration(name, inside, depth))
        if self.chance(0.3):
            made.append(self.statement(inside, depth))
        return [token for tokens in made for token in tokens], inside

    def declaration(self, name, scope, depth):
        return self.one(
            lambda: [name],
            lambda: [name],
            lambda: [name, "=", *self.value(scope, depth - 1)],
            lambda: ["f", "(", name, "_", ")", "=", *self.value(scope, depth - 1)],
            lambda: ["[", name, "]", "=", *self.value(scope, depth - 1)],
            lambda: ["!", name, "#", name, "=", *self.value(scope, depth - 1)],
            lambda: ["proc", "{", name, *self.formals_and(scope, depth, False)],
            lambda: ["fun", "{", name, *self.formals_and(scope, depth, True)],
            lambda: ["local", "C", "in", name, "=", *self.value(scope | {"C"}, depth - 1), "end"] if name != "C" else [name],
        )

    def name(self):
        return self.draw.choice(NAMES)

    def used(self, scope):
        """A name that may be used."""
        if self.unknown and self.chance(0.02):
            return self.name()
        if not scope or self.chance(0.12):
            return self.draw.choice(LIBRARY + tuple(BUILT_IN) if self.chance(0.6) else LIBRARY)
        return self.draw.choice(sorted(scope))

    def body(self, scope, depth, valued):
        made = []
        if self.chance(0.15):
            made, scope = self.declarations(scope, depth)
            made = [*made, "in"]
        if not valued:
            return made + self.statements(scope, depth)
        before = self.many(0, 1, self.statement, scope, depth) if self.chance(0.4) else []
        return made + before + self.value(scope, depth)

    def statements(self, scope, depth):
        return self.many(1, 3, self.statement, scope, depth)

    def formals_and(self, scope, depth, valued):
        formals = self.draw.sample(NAMES, self.draw.randint(0, 3))
        shown = ["_" if self.chance(0.15) else name for name in formals]
        inside = scope | {name for name in shown if name != "_"}
        return [*shown, "}", *self.body(inside, depth - 1, valued), "end"]

    # ---- statements

    def statement(self, scope, depth):
        if depth <= 0:
            return self.one(lambda: ["skip"], lambda: ["{", "Browse", *self.simple(scope), "}"], lambda: self.tell(scope, 0))
        return self.one(
            lambda: self.tell(scope, depth),
            lambda: self.tell(scope, depth),
            lambda: self.call(scope, depth, 0),
            lambda: self.call(scope, depth, 0),
            lambda: ["@", *self.simple_name(scope), ":=", *self.value(scope, depth - 1)],
            lambda: [*self.simple_name(scope), ":=", *self.value(scope, depth - 1)],
            lambda: self.loop(scope, depth),
            lambda: self.form(scope, depth, False),
            lambda: self.form(scope, depth, False),
        )

    def simple_name(self, scope):
        return [self.draw.choice(sorted(scope))] if scope else ["C", "=", "C"] if self.unknown else ["Map"]

    def tell(self, scope, depth):
        sides = [self.value(scope, depth - 1) for _ in range(self.draw.choice((1, 1, 1, 2)))]
        first = self.simple_name(scope) if scope and self.chance(0.8) else ["(", *self.value(scope, depth - 1), ")"]
        return first + [token for side in sides for token in ("=", *side)]

    def call(self, scope, depth, results):
        if self.chance(0.3):
            name = self.draw.choice(tuple(BUILT_IN))
            count = BUILT_IN[name] - results if name not in scope else self.draw.randint(0, 3)
            return ["{", name, *self.given(scope, depth, count), "}"]
        called = [self.used(scope)] if self.chance(0.8) else self.one(
            lambda: ["{", self.used(scope), *self.given(scope, depth, 1), "}"] if scope else ["Map"],
            lambda: ["fun", "{", "$", *self.formals_and(scope, depth, True)],
            lambda: ["(", *self.value(scope, depth - 1), ")"],
            lambda: ["!", self.used(scope)],
        )
        if len(called) == 1 and called[0] in BUILT_IN and called[0] not in scope:
            called = ["Map"]
        return ["{", *called, *self.given(scope, depth, self.draw.randint(0, 3)), "}"]

    def given(self, scope, depth, count):
        return [token for _ in range(count) for token in self.value(scope, depth - 1)]

    def loop(self, scope, depth):
        pattern, names = self.pattern(scope, depth - 1)
        while pattern[0] == "(":
            pattern, names = self.pattern(scope, depth - 1)
        over = self.value(scope, depth - 1)
        if self.chance(0.4):
            over += ["..", *self.value(scope, depth - 1)]
            if self.chance(0.4):
                over += [";", *self.value(scope, depth - 1)]
        return ["for", *pattern, "in", *over, "do", *self.body(scope | names, depth - 1, False), "end"]

    # ---- forms

    def form(self, scope, depth, valued):
        depth -= 1
        return self.one(
            lambda: ["if", *self.choice(scope, depth, valued), "end"],
            lambda: ["if", *self.choice(scope, depth, valued), "end"],
            lambda: ["case", *self.matching(scope, depth, valued), "end"],
            lambda: ["case", *self.matching(scope, depth, valued), "end"],
            lambda: ["thread", *(["at", "2"] if self.chance(0.3) else []), *self.body(scope, depth, valued), "end"],
            lambda: ["try", *self.body(scope, depth, valued), *self.handlers(scope, depth, valued), "end"],
            lambda: ["raise", *self.value(scope, depth), "end"],
            lambda: self.local(scope, depth, valued),
        )

    def local(self, scope, depth, valued):
        declared, inside = self.declarations(scope, depth)
        body = self.statements(inside, depth) if not valued else self.value(inside, depth)
        return ["local", *declared, "in", *body, "end"]

    def choice(self, scope, depth, valued):
        return [*self.value(scope, depth), "then", *self.body(scope, depth, valued), *self.rest(scope, depth, valued)]

    def rest(self, scope, depth, valued):
        return self.one(
            lambda: ["else", *self.body(scope, depth, valued)],
            lambda: ["else", *self.body(scope, depth, valued)],
            lambda: [],
            lambda: ["elseif", *self.choice(scope, depth - 1, valued)] if depth > 0 else [],
            lambda: ["elsecase", *self.matching(scope, depth - 1, valued)] if depth > 0 else [],
        )

    def matching(self, scope, depth, valued):
        return [*self.value(scope, depth), "of", *self.clauses(scope, depth, valued), *self.rest(scope, depth, valued)]

    def clauses(self, scope, depth, valued):
        made = []
        for _ in range(self.draw.randint(1, 3)):
            pattern, names = self.pattern(scope, depth)
            guard = ["andthen", *self.value(scope | names, depth)] if self.chance(0.15) else []
            made += ["[]", *pattern, *guard, "then", *self.body(scope | names, depth, valued)]
        return made[1:]

    def handlers(self, scope, depth, valued):
        made = ["catch", *self.clauses(scope, depth, valued)] if self.chance(0.8) else []
        return made + (["finally", *self.body(scope, depth, False)] if not made or self.chance(0.3) else [])

    # ---- patterns

    def pattern(self, scope, depth):
        """A pattern whose variables differ, and their names."""
        names = [name for name in self.draw.sample(NAMES, len(NAMES)) if name not in ("Do", "Get")]
        left = iter(names)
        tokens = self.pattern_of(scope, depth, left)
        rest = set(left)
        return tokens, {name for name in names if name not in rest}

    def pattern_of(self, scope, depth, names):
        simple = (
            lambda: [next(names, "_")],
            lambda: [next(names, "_")],
            lambda: ["_"],
            lambda: ["!", self.used(scope)],
            lambda: [self.draw.choice(CONSTANTS)],
        )
        if depth <= 0:
            return self.one(*simple)
        def part():
            return self.pattern_of(scope, depth - 1, names)

        return self.one(
            *simple,
            lambda: ["f", "(", *part(), *part(), ")"],
            lambda: ["g", "(", "a", ":", *part(), *part(), "2", ":", *part(), ")"],
            lambda: ["[", *part(), *part(), "]"],
            lambda: [*self.tight(part()), "|", *part()],
            lambda: [*self.tight(part()), "#", *self.tight(part())],
            lambda: ["(", *part(), ")"],
            lambda: [next(names, "_"), "|", next(names, "_")],
            lambda: ["f", "(", next(names, "_"), ")"],
        )

    def tight(self, tokens):
        return ["(", *tokens, ")"] if "|" in tokens or "#" in tokens else tokens

    # ---- values

    def simple(self, scope):
        return self.one(
            lambda: [self.draw.choice(CONSTANTS)],
            lambda: [self.used(scope)],
            lambda: [self.used(scope)],
            lambda: ["_"],
            lambda: ["!", self.used(scope)],
        )

    def value(self, scope, depth):
        if depth <= 0:
            return self.simple(scope)
        def part():
            return self.value(scope, depth - 1)

        return self.one(
            lambda: self.simple(scope),
            lambda: self.simple(scope),
            lambda: [*part(), self.draw.choice(OPERATORS), *part()],
            lambda: [*part(), self.draw.choice(OPERATORS), *part()],
            lambda: ["(", *part(), ")"],
            lambda: ["~", *part()],
            lambda: ["@", *self.simple(scope)],
            lambda: [*self.simple(scope), ".", *self.draw.choice((["1"], ["a"], ["(", *part(), ")"]))],
            lambda: ["f", "(", *part(), *part(), ")"],
            lambda: ["f", "(", *part(), "a", ":", *part(), ")"],
            lambda: ["[", *part(), *part(), "]"],
            lambda: ["[", *(token for _ in range(self.draw.choice((1,) * 9 + (3,) * 9 + (60, 130))) for token in self.simple(scope)), "]"],
            lambda: [*part(), "#", *part(), "#", *part()],
            lambda: self.call(scope, depth, 1),
            lambda: self.call(scope, depth, 1),
            lambda: ["{", self.draw.choice(LIBRARY), "$", *part(), "}"],
            lambda: ["{", self.draw.choice(LIBRARY), "f", "(", "$", ")", "}"],
            lambda: ["proc", "{", "$", *self.formals_and(scope, depth, False)],
            lambda: ["fun", "{", "$", *self.formals_and(scope, depth, True)],
            lambda: self.form(scope, depth, True),
            lambda: self.form(scope, depth, True),
        )
