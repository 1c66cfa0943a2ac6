"""Patterns of the book's language: which of them are patterns of the kernel language as they stand, and the tests that the others stand for."""
from book_edits import NewName
from book_scopes import variables

CONSTANTS = ("integer", "character", "atom", "unit")


def is_flat(clause):
    """Whether a clause needs no test: its pattern has constants or variables alone on its one level, and no condition stands behind it."""
    pattern = clause.pattern
    if clause.guard:
        return False
    parts = [pattern.left, pattern.right] if pattern.kind == "bar" else getattr(pattern, "parts", ())
    return pattern.kind in CONSTANTS or (pattern.kind in ("record", "tuple", "bar") and all(part.kind in ("variable", "wild") for part in parts))


def constant_text(token):
    """A constant as the kernel language has it."""
    return {"character": str(token.value), "word": "'unit'"}.get(token.kind, token.said)


def with_parts(label, parts):
    """A record of parts that are names or texts, or its label alone where there are none."""
    said = []
    for part in parts:
        said += [" ", part]
    return [label, "(", *said[1:], ")"] if said else [label]


class Test:
    """The value that tells whether a name matches a pattern: `true`, with what its variables stand for, or `false`. `open` are the patterns that
    are still to be looked at, the next last, each with its name; of a list or a string its parts stand there, and how many of them were."""

    def __init__(self, tokens, pattern, name, used):
        self.tokens, self.used, self.said, self.found, self.ends = tokens, used, [], [], 0
        self.open = [(pattern, name)]
        while self.open:
            self.step(*self.open.pop())
        self.parts = [*self.said, *with_parts("true", self.found), *[" else false end"] * self.ends]

    def step(self, pattern, name):
        if isinstance(pattern, tuple):
            self.rest(*pattern, name)
        elif pattern.kind == "variable":
            self.found.append(name)
        elif pattern.kind == "brackets":
            self.open.append((pattern.parts[0], name))
        elif pattern.kind == "escape":
            self.ends += 1
            self.said += ["if ", name, " == ", *self.used(pattern.last), " then "]
        elif pattern.kind == "bar":
            self.bar([pattern.left, pattern.right], name)
        elif pattern.kind in ("list", "string"):
            parts = pattern.parts if pattern.kind == "list" else self.tokens[pattern.first].value
            self.rest(parts, 0, name)
        elif pattern.kind in ("record", "tuple"):
            self.record(pattern, name)
        elif pattern.kind != "wild":
            self.matched(name, [constant_text(self.tokens[pattern.first])])

    def matched(self, name, said):
        self.ends += 1
        self.said += ["case ", name, " of ", *said, " then "]

    def names_of(self, parts):
        """New names for parts, which come next."""
        names = [NewName() for _ in parts]
        self.open += reversed(list(zip(parts, names)))
        return names

    def rest(self, parts, at, name):
        """What a list has from a place on: its parts are patterns, and those of a string integers."""
        if at == len(parts):
            self.matched(name, ["nil"])
        elif isinstance(parts[at], int):
            head, tail = NewName(), NewName()
            self.matched(name, [head, "|", tail])
            self.matched(head, [str(parts[at])])
            self.open.append(((parts, at + 1), tail))
        else:
            self.bar([parts[at], (parts, at + 1)], name)

    def bar(self, parts, name):
        head, tail = self.names_of(parts)
        self.matched(name, [head, "|", tail])

    def record(self, pattern, name):
        names = self.names_of(pattern.parts)
        features = getattr(pattern, "features", [None] * len(names))
        said = []
        for feature, each in zip(features, names):
            said += [" "] + ([self.tokens[feature].said, ":"] if feature is not None else []) + [each]
        label = self.tokens[pattern.first].said if pattern.kind == "record" else "'#'"
        self.matched(name, [label, "(", *said[1:], ")"])


def names_text(tokens, pattern):
    """What a test that holds is matched with: the variables of its pattern."""
    return "".join(with_parts("true", [tokens[at].said for at in variables(pattern)]))
