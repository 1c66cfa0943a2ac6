"""What the names of a text of the book's language mean, and which of its phrases are values: `Scopes(tokens, tree)` has the faults of a text
that book_reading.py read, with what its translation needs to know of its names."""
import re
from collections import Counter

from book_base import BASE
from book_tokens import Fault
from reading import BUILT_IN

MOST_ITEMS = 64
BITS = 127
# The faults at one token, the first that is answered first.
KIND, COUNT, NUMBER, SITE, WIDE, TWICE, UNBOUND = range(7)
FORMS = ("if", "case", "local", "thread", "try", "raise")
PARTED = ("record", "list", "tuple", "brackets")
LEAVES = ("variable", "escape", "wild", "integer", "character", "string", "atom", "unit")


def is_pattern(value):
    """Whether a value has the form of a pattern."""
    if value.kind == "bar":
        return is_pattern(value.left) and is_pattern(value.right)
    return value.kind in LEAVES or (value.kind in PARTED and all(map(is_pattern, value.parts)))


def leaves(pattern):
    """What a pattern is made of, in the order of the text."""
    if pattern.kind == "bar":
        return leaves(pattern.left) + leaves(pattern.right)
    return [leaf for part in pattern.parts for leaf in leaves(part)] if pattern.kind in PARTED else [pattern]


def variables(pattern):
    """The tokens of the variables of a pattern, but of those behind `!`."""
    return [leaf.first for leaf in leaves(pattern) if leaf.kind == "variable"]


def declared_by(tokens, phrases):
    """The names that declarations declare, in the order of the text, each once."""
    found = []
    for phrase in phrases:
        if phrase.kind == "variable":
            found.append(tokens[phrase.first].value)
        elif phrase.kind == "tell" and is_pattern(phrase.values[0]):
            found += [tokens[at].value for at in variables(phrase.values[0])]
        elif phrase.kind == "define":
            found.append(tokens[phrase.name].value)
        elif phrase.kind == "local":
            hidden = declared_by(tokens, phrase.declared)
            found += [name for name in declared_by(tokens, phrase.phrases) if name not in hidden]
    return list(dict.fromkeys(found))


def is_assignment(tokens, phrase):
    return phrase.kind == "operation" and tokens[phrase.sign].said == ":="


def is_statement(tokens, phrase):
    if phrase.kind == "call":
        return not phrase.hole
    return phrase.kind in ("skip", "tell", "define", "for", *FORMS) or is_assignment(tokens, phrase)


class Scopes:
    """Goes through a text. `around` counts the declarations of each name around a place, `base` has the names of the library that the text
    uses, `built_in` the tokens of names that are built in where they are called, and `as_value` where they stand for a procedure."""

    def __init__(self, tokens, tree):
        self.tokens, self.faults, self.around = tokens, [], Counter()
        self.base, self.built_in, self.as_value = set(), set(), set()
        for at, token in enumerate(tokens):
            if token.kind == "integer":
                self.number(at, token)
        self.text(tree)

    def first_fault(self):
        """The first fault, or None."""
        at, _, said = min(self.faults, default=(None, None, None))
        return None if at is None else Fault(self.tokens[at].start, said)

    def fault(self, at, kind, said):
        self.faults.append((at, kind, said))

    def number(self, at, token):
        if re.match(r"~?0\d", token.said) or not -(1 << BITS) <= token.value < 1 << BITS:
            self.fault(at, NUMBER, "bad number")

    def too_many(self, firsts, most=MOST_ITEMS):
        if len(firsts) > most:
            self.fault(firsts[most], WIDE, "too many items")

    def given_twice(self, items):
        """Of what is given, each with its token: the tokens of what was given before."""
        seen = set()
        for at, item in items:
            if item in seen:
                self.fault(at, TWICE, "given twice")
            seen.add(item)

    def name(self, at):
        return self.tokens[at].value

    # ---- names

    def inside(self, names, reading, *given):
        """Goes through what stands where these names are declared."""
        self.around.update(names)
        reading(*given)
        self.around.subtract(names)

    def use(self, at, where="value"):
        """A use of a name: as a value, as what is called, behind a dot, or as what a phrase defines."""
        name = self.name(at)
        if self.around[name] > 0:
            return
        if name in BASE and where != "defined":
            self.base.add(name)
        elif name in BUILT_IN and where in ("value", "called"):
            (self.built_in if where == "called" else self.as_value).add(at)
        else:
            self.fault(at, UNBOUND, "undeclared")

    # ---- the text, bodies and phrases

    def text(self, tree):
        self.statements(tree.phrases)
        for declare in tree.declares:
            self.around.update(declared_by(self.tokens, declare.declared))
            self.declarations(declare.declared)
            self.statements(declare.phrases)

    def body(self, body, valued):
        self.declared_body(body.declared, body.phrases, valued)

    def declared_body(self, declared, phrases, valued):
        def both():
            self.declarations(declared)
            self.statements(phrases[:-1] if valued else phrases)
            if valued:
                self.last_value(phrases[-1])

        self.inside(declared_by(self.tokens, declared), both)

    def declarations(self, phrases):
        for phrase in phrases:
            if phrase.kind != "variable":
                self.statement(phrase)

    def statements(self, phrases):
        for phrase in phrases:
            self.statement(phrase)

    def last_value(self, phrase):
        if phrase.kind in ("skip", "tell", "define", "for"):
            self.fault(phrase.first, KIND, "expected a value")
            self.statement(phrase)
        else:
            self.value(phrase)

    def statement(self, phrase):
        if not is_statement(self.tokens, phrase):
            self.fault(phrase.first, KIND, "expected a statement")
            self.value(phrase)
        elif phrase.kind in FORMS:
            self.form(phrase, False)
        elif phrase.kind == "call":
            self.call(phrase, False)
        elif phrase.kind == "operation":
            self.value(phrase)
        else:
            getattr(self, "check_" + phrase.kind)(phrase)

    def check_skip(self, phrase):
        """Nothing stands in it."""

    def check_tell(self, phrase):
        first, *others = phrase.values
        if first.kind == "variable":
            self.use(first.first, "defined")
        else:
            self.value(first)
        for value in others:
            self.value(value)

    def check_define(self, phrase):
        self.use(phrase.name, "defined")
        self.procedure(phrase)

    def check_for(self, phrase):
        for value in phrase.values:
            self.value(value)
        self.inside(self.pattern(phrase.pattern), self.body, phrase.body, False)

    # ---- values

    def value(self, value):
        if value.kind in FORMS:
            self.form(value, True)
        elif value.kind in ("variable", "escape"):
            self.use(value.last)
        elif value.kind in PARTED:
            self.parted(value)
        else:
            checking = getattr(self, "check_" + value.kind, None)
            if checking:
                checking(value)

    def parted(self, value):
        if value.kind == "record":
            self.fields(value)
        elif value.kind == "tuple":
            self.too_many([part.first for part in value.parts])
        for part in value.parts:
            self.value(part)

    def fields(self, record):
        """The features of a record: those of fields without one are their places among these."""
        count, items = 0, []
        for feature, part in zip(record.features, record.parts):
            count += feature is None
            token = self.tokens[feature] if feature is not None else None
            items.append((feature, (token.kind, token.value)) if token else (part.first, ("integer", count)))
        self.too_many([at for at, _ in items])
        self.given_twice(items)

    def check_bar(self, value):
        self.value(value.left)
        self.value(value.right)

    check_operation = check_bar

    def check_prefix(self, value):
        self.value(value.value)

    def check_dot(self, value):
        self.value(value.left)
        if self.tokens[value.feature].kind == "variable":
            self.use(value.feature, "dot")

    def check_select(self, value):
        self.value(value.left)
        self.value(value.feature)

    def check_procedure(self, value):
        self.procedure(value)

    def check_call(self, value):
        self.call(value, True)

    def procedure(self, procedure):
        is_function = self.tokens[procedure.first].said == "fun"
        self.too_many(procedure.formals, MOST_ITEMS - is_function)
        formals = [at for at in procedure.formals if self.tokens[at].kind == "variable"]
        self.given_twice([(at, self.name(at)) for at in formals])
        self.inside([self.name(at) for at in formals], self.body, procedure.body, is_function)

    def call(self, call, is_value):
        called, *given = call.parts
        results = is_value and not call.hole
        name = self.name(called.first) if called.kind == "variable" else None
        if name in BUILT_IN and not self.around[name] > 0:
            self.use(called.first, "called")
            wanted = BUILT_IN[name] - results
            if len(given) > wanted:
                self.fault(given[wanted].first, COUNT, "expected }")
            elif len(given) < wanted:
                self.fault(call.last, COUNT, "expected a value")
        else:
            self.value(called)
        self.too_many([part.first for part in given], MOST_ITEMS - results)
        for part in given:
            self.value(part)

    # ---- forms

    def form(self, form, valued):
        getattr(self, "form_" + form.kind)(form, valued)

    def form_if(self, form, valued):
        self.value(form.subject)
        self.body(form.body, valued)
        self.rest(form.rest, valued)

    def rest(self, rest, valued):
        if rest and rest.kind == "else":
            self.body(rest.body, valued)
        elif rest:
            self.form(rest, valued)

    def form_case(self, form, valued):
        self.value(form.subject)
        self.clauses(form.clauses, valued)
        self.rest(form.rest, valued)

    def clauses(self, clauses, valued):
        for clause in clauses:
            def both():
                if clause.guard:
                    self.value(clause.guard)
                self.body(clause.body, valued)

            self.inside(self.pattern(clause.pattern), both)

    def form_local(self, form, valued):
        self.declared_body(form.declared, form.phrases, valued)

    def form_thread(self, form, valued):
        if form.site is not None and self.tokens[form.site].value < 1:
            self.fault(form.site, SITE, "site below 1")
        self.body(form.body, valued)

    def form_try(self, form, valued):
        self.body(form.body, valued)
        self.clauses(form.clauses, valued)
        if form.final:
            self.body(form.final, False)

    def form_raise(self, form, _):
        self.value(form.value)

    # ---- patterns

    def pattern(self, pattern):
        """The names that a pattern declares."""
        found = variables(pattern)
        self.too_many(found)
        self.given_twice([(at, self.name(at)) for at in found])
        self.pattern_parts(pattern)
        return [self.name(at) for at in found]

    def pattern_parts(self, pattern):
        """The uses in a pattern, and its records."""
        if pattern.kind == "escape":
            self.use(pattern.last)
        elif pattern.kind == "bar":
            self.pattern_parts(pattern.left)
            self.pattern_parts(pattern.right)
        elif pattern.kind in PARTED:
            if pattern.kind == "record":
                self.fields(pattern)
            elif pattern.kind == "tuple":
                self.too_many([part.first for part in pattern.parts])
            for part in pattern.parts:
                self.pattern_parts(part)
