"""Reads a text of the book's language: `read(text)` is its tokens and its tree. A text that is none is a `Fault` at the first token that no
text continues, or that is nested too deep. Which names are declared, and what is a value, book_scopes.py finds."""
import sys

from book_tokens import Fault, tokens

sys.setrecursionlimit(100_000)

MOST_LEVELS = 500
STATEMENTS, VALUES = ("a statement",), ("a statement", "a value")
FORMS = ("if", "case", "local", "thread", "try", "raise")
SIMPLE = ("variable", "integer", "character", "string", "atom")
# How strong each sign binds what stands beside it, and how it groups.
STRENGTHS = {":=": 1, "orelse": 2, "andthen": 3, "|": 5, "#": 6, "+": 7, "-": 7, "*": 8, "div": 8, "mod": 8}
STRENGTHS.update(dict.fromkeys(("==", "\\=", "=<", "<", ">=", ">"), 4))
STRONGEST, TO_THE_LEFT, ALONE, BAR, TUPLE = 8, (7, 8), 4, 5, 6


class Node:
    """A part of a text: what it is, its first and its last token, and its parts. `deepest` is the deepest level in it, 0 where it has none."""

    def __init__(self, kind, first, last, deepest=0, **parts):
        self.kind, self.first, self.last, self.deepest = kind, first, last, deepest
        self.__dict__.update(parts)


def joined(texts):
    return ", ".join(texts[:-1]) + " or " + texts[-1]


class Reader:
    """Reads a text. `began` is the token at which the last phrase began, and `hole` whether a `$` may stand: it may, it stood, or None."""

    def __init__(self, text):
        self.tokens, self.at, self.began, self.hole = tokens(text), 0, None, None

    # ---- tokens

    def token(self):
        return self.tokens[self.at]

    def refuse(self, wanted):
        token = self.token()
        if token.kind == "fault":
            raise Fault(token.value, token.said)
        raise Fault(token.start, "expected " + wanted)

    def stands(self, *words):
        return self.token().kind in ("word", "sign") and self.token().said in words

    def step(self):
        self.at += 1
        return self.at - 1

    def take(self, said, wanted=None):
        """Takes this word or sign."""
        if not self.stands(said):
            self.refuse(wanted or said)
        return self.step()

    def take_kind(self, kinds, wanted):
        if self.token().kind not in kinds:
            self.refuse(wanted)
        return self.step()

    def deep(self, level):
        """Refuses the next token where what it begins, or makes deeper, has more levels than there may be."""
        if level > MOST_LEVELS:
            raise Fault(self.token().start, "nested too deep")

    def without_hole(self, reading, *given):
        return self.with_hole(None, reading, *given)

    def with_hole(self, hole, reading, *given):
        before, self.hole = self.hole, hole
        made = reading(*given)
        self.hole = before
        return made

    # ---- the text, bodies and phrases

    def text(self):
        end = "the end of the text"
        phrases = [] if self.stands("declare") else self.phrases("a statement", STATEMENTS, 1)
        declares, later = [], joined([*STATEMENTS, end])
        while self.stands("declare"):
            first = self.step()
            declared, inner, behind = self.phrases("a declaration", STATEMENTS, 1), None, []
            later = joined(["a declaration", "in", end])
            if self.stands("in"):
                inner, later = self.step(), joined([*STATEMENTS, end])
                behind = self.many_phrases(STATEMENTS, 1)
            declares.append(Node("declare", first, self.at - 1, declared=declared, inner=inner, phrases=behind))
        if self.token().kind != "end":
            self.refuse(later)
        return Node("text", 0, self.at - 1, phrases=phrases, declares=declares)

    def begins_phrase(self):
        return self.begins_value() or self.stands("skip")

    def phrases(self, wanted, kind, level):
        if not self.begins_phrase():
            self.refuse(wanted)
        return self.many_phrases(kind, level)

    def many_phrases(self, kind, level):
        found = []
        while self.begins_phrase():
            found.append(self.phrase(kind, level))
        return found

    def body(self, kind, level, wanted=None):
        """Phrases, perhaps with declarations before them."""
        first, declared, inner = self.at, [], None
        phrases = self.phrases(wanted or kind[-1], kind, level)
        if self.stands("in"):
            declared, inner = phrases, self.step()
            phrases = self.phrases(kind[-1], kind, level)
        deepest = max(each.deepest for each in declared + phrases)
        return Node("body", first, self.at - 1, deepest, declared=declared, inner=inner, phrases=phrases)

    def closed(self, kind, closers, *words):
        """Refuses what is none of the words that may close a body."""
        if not self.stands(*(words or closers)):
            self.refuse(joined([*kind, *closers]))

    def phrase(self, kind, level):
        self.deep(level)
        first = self.began = self.at
        if self.stands("skip"):
            return Node("skip", first, self.step(), level)
        if self.stands("proc", "fun") and self.names_a_procedure():
            return self.definition(level)
        if self.token().kind == "atom" and self.token().said == "for" and self.begins_loop():
            return self.loop(level)
        values, signs = [self.value(level + 1, kind)], []
        while self.stands("="):
            signs.append(self.step())
            values.append(self.part(level + 1))
        deepest = max(level, *(each.deepest for each in values), 0)
        if signs:
            return Node("tell", first, self.at - 1, deepest, values=values, signs=signs)
        values[0].deepest = deepest
        return values[0]

    def names_a_procedure(self):
        behind = self.tokens[self.at + 1 : self.at + 3]
        return [each.said for each in behind[:1]] == ["{"] and [each.kind for each in behind[1:]] == ["variable"]

    def begins_loop(self):
        behind = self.tokens[self.at + 1]
        return behind.kind in SIMPLE or (behind.kind in ("sign", "word") and behind.said in ("!", "_", "unit", "["))

    def definition(self, level):
        first = self.step()
        self.take("{")
        name = self.step()
        made = self.procedure_from(first, name, level, 1)
        made.kind, made.name = "define", name
        return made

    def loop(self, level):
        first = self.step()
        pattern = self.without_hole(self.pattern, level + 1)
        inner, values, signs = self.take("in"), [self.part(level + 1)], []
        for sign, wanted in ("..", ".. or do"), (";", "; or do"):
            if not self.stands(sign):
                break
            signs.append(self.step())
            values.append(self.part(level + 1))
        if self.token()[:2] != ("atom", "do"):
            self.refuse((".. or do", "; or do", "do")[len(signs)])
        do = self.step()
        body = self.body(STATEMENTS, level + 1)
        self.closed(STATEMENTS, ["end"])
        deepest = max(level, pattern.deepest, body.deepest, *(each.deepest for each in values))
        return Node("for", first, self.step(), deepest, pattern=pattern, inner=inner, values=values, signs=signs, do=do, body=body)

    # ---- values by the strength of their signs

    def begins_value(self):
        words = ("!", "_", "unit", "[", "{", "(", "proc", "fun", "~", "@", *FORMS)
        return self.token().kind in SIMPLE or self.stands(*words) or (self.hole == "may" and self.stands("$"))

    def part(self, level, wanted="a value", least=1):
        """A value that something else has, with signs of at least this strength."""
        if not self.begins_value():
            self.refuse(wanted)
        return self.value(level, VALUES, least)

    def value(self, level, kind, least=1):
        left, most = self.operand(level, kind), STRONGEST
        while True:
            strength = STRENGTHS.get(self.token().said, 0) if self.stands(*STRENGTHS) else 0
            if not least <= strength <= most:
                return left
            left = self.joined_values(left, strength, level)
            most = strength if strength in TO_THE_LEFT else strength - 1

    def made_a_part(self, left, level):
        """How deep a value is that a sign makes of what stands before it."""
        deepest = max(level, left.deepest + 1 if left.deepest else 0)
        self.deep(deepest)
        return deepest

    def joined_values(self, left, strength, level):
        deepest, sign = self.made_a_part(left, level), self.step()
        right = self.part(level + 1, least=strength + (strength in TO_THE_LEFT or strength in (ALONE, TUPLE)))
        parts, signs = [left, right], [sign]
        while strength == TUPLE and self.stands("#"):
            signs.append(self.step())
            parts.append(self.part(level + 1, least=TUPLE + 1))
        deepest = max(deepest, *(each.deepest for each in parts[1:]))
        if strength == TUPLE:
            return Node("tuple", left.first, self.at - 1, deepest, parts=parts, signs=signs)
        kind = "bar" if strength == BAR else "operation"
        return Node(kind, left.first, self.at - 1, deepest, left=left, sign=sign, right=right)

    def operand(self, level, kind):
        if self.stands("~"):
            return self.prefixed(level, self.operand, kind)
        left = self.tight(level, kind)
        while self.stands("."):
            deepest, sign = self.made_a_part(left, level), self.step()
            if self.stands("("):
                opening, feature = self.step(), self.part(level + 1)
                deepest = max(deepest, feature.deepest)
                left = Node("select", left.first, self.take(")"), deepest, left=left, sign=sign, opening=opening, feature=feature)
            else:
                feature = self.take_kind(("variable", "atom", "integer"), "a variable, a feature or (")
                left = Node("dot", left.first, feature, deepest, left=left, feature=feature)
        return left

    def prefixed(self, level, reading, kind):
        """A value behind `~` or `@`."""
        self.deep(level)
        first = self.step()
        if not self.begins_value() or (reading == self.tight and self.stands("~")):
            self.refuse("a value")
        value = reading(level + 1, kind)
        return Node("prefix", first, value.last, max(level, value.deepest), value=value)

    def tight(self, level, kind):
        return self.prefixed(level, self.tight, kind) if self.stands("@") else self.primary(level, kind)

    # ---- primaries

    def primary(self, level, kind):
        first, token = self.at, self.token()
        if token.kind == "variable":
            return Node("variable", first, self.step())
        if self.stands("!", "_", "$"):
            return self.unlevelled()
        self.deep(level)
        if self.stands(*FORMS):
            return self.without_hole(self.form, level, kind)
        if self.stands("proc", "fun"):
            return self.without_hole(self.procedure, level)
        if self.stands("{"):
            return self.call(level)
        return self.simple(level, self.part, self.begins_value, "a value")

    def unlevelled(self):
        """What has no level of its own."""
        first = self.step()
        said = self.tokens[first].said
        if said == "!":
            return Node("escape", first, self.take_kind(("variable",), "a variable"))
        if said == "$":
            self.hole = "stood"
        return Node("wild" if said == "_" else "hole", first, first)

    def simple(self, level, reading, begins, wanted):
        """A primary of values and of patterns alike, whose parts are read so."""
        first, token = self.at, self.token()
        if self.stands("["):
            self.step()
            parts = [reading(level + 1, wanted)]
            while begins():
                parts.append(reading(level + 1))
            return self.made("list", first, self.take("]", wanted + " or ]"), level, parts)
        if self.stands("("):
            self.step()
            parts = [reading(level + 1, wanted)]
            return self.made("brackets", first, self.take(")"), level, parts)
        self.step()
        if token.kind == "atom" and self.stands("("):
            return self.record(first, level, reading, begins)
        return Node("unit" if token.kind == "word" else token.kind, first, first, level)

    def made(self, kind, first, last, level, parts, **more):
        return Node(kind, first, last, max([level] + [each.deepest for each in parts]), parts=parts, **more)

    def record(self, first, level, reading, begins):
        self.step()
        features, parts = [], []
        while begins():
            behind = self.tokens[self.at + 1]
            named = self.token().kind in ("atom", "integer") and (behind.kind, behind.said) == ("sign", ":")
            features.append(self.step() if named else None)
            if named:
                self.step()
            parts.append(reading(level + 1))
        return self.made("record", first, self.take(")", "a field or )"), level, parts, features=features)

    def call(self, level):
        first = self.step()
        parts = [self.without_hole(self.part, level + 1)]
        before, self.hole = self.hole, "may"
        while self.begins_value():
            parts.append(self.value(level + 1, VALUES))
        hole, last = self.hole == "stood", self.take("}", "a value or }")
        self.hole = before
        return self.made("call", first, last, level, parts, hole=hole)

    def procedure(self, level):
        first = self.step()
        self.take("{")
        if not self.stands("$"):
            self.refuse("a variable or $" if first == self.began else "$")
        return self.procedure_from(first, self.step(), level, 1)

    def procedure_from(self, first, named, level, more):
        """A procedure behind its name or `$`."""
        formals, kind = [], STATEMENTS if self.tokens[first].said == "proc" else VALUES
        while self.token().kind == "variable" or self.stands("_"):
            formals.append(self.step())
        closing = self.take("}", "a variable or }")
        body = self.without_hole(self.body, kind, level + more)
        self.closed(kind, ["end"])
        deepest = max(level, body.deepest)
        return Node("procedure", first, self.step(), deepest, named=named, formals=formals, closing=closing, body=body)

    # ---- forms

    def form(self, level, kind):
        made = getattr(self, "read_" + self.token().said)(level, kind)
        made.end = made.last
        return made

    def ended(self, made):
        made.last = self.take("end")
        return made

    def read_if(self, level, kind):
        return self.ended(self.choice(level, kind))

    def read_case(self, level, kind):
        return self.ended(self.matching(level, kind))

    def choice(self, level, kind):
        """`if` or `elseif`, up to the `end`."""
        first, subject = self.step(), self.part(level + 1)
        then = self.take("then")
        body = self.body(kind, level + 1)
        rest = self.rest(level, kind, ["else", "end"])
        deepest = max([level, subject.deepest, body.deepest] + [each.deepest for each in [rest] if each])
        return Node("if", first, self.at - 1, deepest, subject=subject, then=then, body=body, rest=rest)

    def rest(self, level, kind, closers):
        """What stands behind the bodies of a form: another body, another form, or None."""
        self.closed(kind, closers, "else", "elseif", "elsecase", "end")
        if self.stands("end"):
            return None
        if self.stands("else"):
            first, body = self.step(), self.body(kind, level + 1)
            self.closed(kind, ["end"])
            return Node("else", first, body.last, body.deepest, body=body)
        self.deep(level + 1)
        return (self.choice if self.stands("elseif") else self.matching)(level + 1, kind)

    def matching(self, level, kind):
        """`case` or `elsecase`, up to the `end`."""
        first, subject = self.step(), self.part(level + 1)
        of = self.take("of")
        clauses = self.clauses(level + 1, kind, ["else", "end"], ["else", "elseif", "elsecase", "end"])
        rest = self.rest(level, kind, ["[]", "else", "end"])
        deepest = max([level, subject.deepest] + [each.deepest for each in clauses + [rest] if each])
        return Node("case", first, self.at - 1, deepest, subject=subject, of=of, clauses=clauses, rest=rest)

    def clauses(self, level, kind, closers, words):
        found = [self.clause(level, kind, None)]
        while self.stands("[]"):
            found.append(self.clause(level, kind, self.step()))
        self.closed(kind, ["[]", *closers], *words)
        return found

    def clause(self, level, kind, before):
        if not self.begins_pattern():
            self.refuse("a pattern")
        self.deep(level)
        pattern, andthen, guard = self.pattern(level), None, None
        if self.stands("andthen"):
            andthen, guard = self.step(), self.part(level)
        then, body = self.take("then"), self.body(kind, level)
        deepest = max([level, pattern.deepest, body.deepest] + [each.deepest for each in [guard] if each])
        parts = {"pattern": pattern, "andthen": andthen, "guard": guard, "then": then, "body": body, "before": before}
        return Node("clause", pattern.first, body.last, deepest, **parts)

    def read_local(self, level, kind):
        first, declared = self.step(), self.phrases("a declaration", STATEMENTS, level + 1)
        inner = self.take("in", "a declaration or in")
        phrases = self.phrases(kind[-1], kind, level + 1)
        self.closed(kind, ["end"])
        return self.made("local", first, self.step(), level, declared + phrases, declared=declared, inner=inner, phrases=phrases)

    def read_thread(self, level, kind):
        first, site, wanted = self.step(), None, joined([kind[-1], "at"])
        if self.stands("at"):
            self.step()
            site, wanted = self.take_kind(("integer",), "an integer"), None
        body = self.body(kind, level + 1, wanted)
        self.closed(kind, ["end"])
        return Node("thread", first, self.step(), max(level, body.deepest), site=site, body=body)

    def read_try(self, level, kind):
        first, body = self.step(), self.body(kind, level + 1)
        catch, clauses, final = None, [], None
        self.closed(kind, ["catch", "finally"])
        if self.stands("catch"):
            catch = self.step()
            clauses = self.clauses(level + 1, kind, ["finally", "end"], ["finally", "end"])
        if self.stands("finally"):
            self.step()
            final = self.body(STATEMENTS, level + 1)
            self.closed(STATEMENTS, ["end"])
        deepest = max([level] + [each.deepest for each in [body, *clauses, final] if each])
        return Node("try", first, self.step(), deepest, body=body, catch=catch, clauses=clauses, final=final)

    def read_raise(self, level, _):
        first, value = self.step(), self.part(level + 1)
        return Node("raise", first, self.take("end"), max(level, value.deepest), value=value)

    # ---- patterns

    def begins_pattern(self):
        return self.token().kind in SIMPLE or self.stands("!", "_", "unit", "[", "(")

    def pattern(self, level, wanted="a pattern"):
        left = self.pattern_tuple(level, wanted)
        if not self.stands("|"):
            return left
        deepest, sign = self.made_a_part(left, level), self.step()
        right = self.pattern(level + 1)
        return Node("bar", left.first, right.last, max(deepest, right.deepest), left=left, sign=sign, right=right)

    def pattern_tuple(self, level, wanted):
        left = self.pattern_part(level, wanted)
        if not self.stands("#"):
            return left
        deepest, parts, signs = self.made_a_part(left, level), [left], []
        while self.stands("#"):
            signs.append(self.step())
            parts.append(self.pattern_part(level + 1, "a pattern"))
        made = self.made("tuple", left.first, self.at - 1, level, parts[1:], signs=signs)
        made.parts, made.deepest = parts, max(made.deepest, deepest)
        return made

    def pattern_part(self, level, wanted):
        if not self.begins_pattern():
            self.refuse(wanted)
        if self.token().kind == "variable":
            return Node("variable", self.at, self.step())
        if self.stands("!", "_"):
            return self.unlevelled()
        self.deep(level)
        return self.simple(level, self.pattern, self.begins_pattern, "a pattern")


def read(text):
    """The tokens of a text, and its tree."""
    reader = Reader(text)
    return reader.tokens, reader.text()
