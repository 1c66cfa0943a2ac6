"""Translates the book's language to the language that `run` reads: `translate(text)` is the translation with its places."""
from itertools import count, product

from book_apart import LONG, bars, is_apart, is_plain
from book_base import HELPERS, prelude
from book_edits import Edits, NewName, Page, Piece
from book_patterns import Test, constant_text, is_flat, names_text
from book_reading import read
from book_scopes import FORMS, MOST_ITEMS, Scopes, declared_by
from book_tokens import Fault
from reading import BUILT_IN

# The places in which a value is written: any may stand, one in brackets must, or a list needs none.
WHOLE, PART, TAIL = range(3)
# What is told in a body: nothing where it is of statements, its one value where it is plain, else what a new name is told.
STATEMENTS, PLAIN = "statements", "plain"
NO_ELSE = "else raise error(noElse) end"


def suffix_of(tokens):
    """What distinguishes new names from all variables of a text."""
    names = {token.value for token in tokens if token.kind == "variable"}
    numbered = {name.rstrip("0123456789") for name in names if name[-1].isdigit()}
    for length in count():
        for letters in product("abcdefghijklmnopqrstuvwxyz", repeat=length):
            suffix = "".join(letters)
            if "V" + suffix not in numbered and not any(word + suffix in names for word in HELPERS):
                return suffix


class Writer(Edits):
    """Makes the edits of a text. `holes` are what the calls around a place are told to, and `helpers` which of these the text needs."""

    def __init__(self, text, tokens, tree, scopes):
        super().__init__(tokens[:-1])
        self.scopes, self.suffix, self.helpers, self.holes = scopes, suffix_of(tokens), set(), []
        self.text(tree)

    def said(self, at):
        return self.tokens[at].said

    def helper(self, word):
        self.helpers.add(word)
        return "{" + word + self.suffix

    # ---- the text and bodies

    def text(self, tree):
        self.statements(tree.phrases)
        ends, last = [], len(self.tokens) - 1
        for declare in tree.declares:
            ends += self.declaring(declare)
            self.statements(declare.phrases)
        if tree.declares and not tree.declares[-1].phrases and all(phrase.kind == "variable" for phrase in tree.declares[-1].declared):
            self.behind(last, "skip")
        for _ in ends:
            self.behind(last, "end")
        before = prelude(self.helpers, self.scopes.base, self.suffix)
        if before:
            self.front[0].insert(0, Piece((before,)))
            self.behind(last, "end")

    def declaring(self, form):
        """The declarations of `declare` or `local`, whose word is dropped, and the names of each `local` that stands there."""
        self.drop(form.first)
        made = self.grouped(declared_by(self.tokens, form.declared))
        for names in made:
            self.put(form.first, f"local {' '.join(names)} in")
        self.declarations(form.declared, form.inner)
        return made

    def grouped(self, names):
        return [names[at : at + MOST_ITEMS] for at in range(0, len(names), MOST_ITEMS)]

    def declarations(self, phrases, inner):
        for phrase in phrases:
            if phrase.kind == "variable":
                self.drop(phrase.first)
            else:
                self.statement(phrase)
        if inner is not None:
            self.drop(inner)

    def statements(self, phrases):
        for phrase in phrases:
            self.statement(phrase)

    def body(self, body, told):
        if told == PLAIN:
            return self.value(body.phrases[0], WHOLE)
        made = self.grouped(declared_by(self.tokens, body.declared))
        for names in made:
            self.before(body.first, f"local {' '.join(names)} in")
        self.declarations(body.declared, body.inner)
        self.told_phrases(body.phrases, told)
        for _ in made:
            self.behind(body.last, "end")

    def told_phrases(self, phrases, told):
        if told == STATEMENTS:
            return self.statements(phrases)
        self.statements(phrases[:-1])
        self.tell(told, phrases[-1])

    # ---- statements

    def statement(self, phrase):
        if phrase.kind in FORMS:
            self.form(phrase, STATEMENTS)
        else:
            getattr(self, "state_" + phrase.kind)(phrase)

    def state_skip(self, phrase):
        """It is kept."""

    def state_tell(self, phrase):
        first, second = phrase.values[:2]
        if len(phrase.values) == 2 and first.kind == "variable" and not is_apart(self.tokens, second):
            return self.value(second, WHOLE)
        name = NewName()
        self.before(phrase.first, "local ", name, " in")
        for value in phrase.values:
            self.tell(name, value)
        self.drop(*phrase.signs)
        self.behind(phrase.last, "end")

    def state_define(self, phrase):
        self.write_procedure(phrase)

    def state_operation(self, phrase):
        self.called(phrase, "Set", phrase.left, phrase.right)

    def called(self, node, word, *parts):
        """A call of a helper for a sign between two values."""
        self.before(node.first, self.helper(word))
        for part in parts:
            self.value(part, WHOLE)
        self.drop(node.sign)
        self.behind(node.last, "}")

    def state_call(self, phrase):
        called, *given = phrase.parts
        name = NewName()
        if called.kind != "variable":
            self.put(phrase.first, "local ", name, " in")
            self.tell(name, called)
            self.behind(called.last, "{", name)
        for part in given:
            self.value(part, WHOLE)
        if called.kind != "variable":
            self.behind(phrase.last, "end")

    def state_for(self, phrase):
        pattern, name = phrase.pattern, NewName()
        self.put(phrase.first, self.helper(("Each", "Range", "Step")[len(phrase.signs)]))
        self.drop(*range(pattern.first, pattern.last + 1), phrase.inner, *phrase.signs)
        for value in phrase.values:
            self.value(value, WHOLE)
        if pattern.kind == "variable":
            self.put(phrase.do, f"proc {{$ {self.said(pattern.first)}}}")
        elif pattern.kind == "wild":
            self.put(phrase.do, "proc {$ ", name, "}")
        else:
            self.put(phrase.do, "proc {$ ", name, "} case ", *self.test(pattern, name), " then")
        self.body(phrase.body, STATEMENTS)
        if pattern.kind not in ("variable", "wild"):
            self.before(phrase.last, NO_ELSE + " end")
        self.behind(phrase.last, "}")

    # ---- values

    def value(self, value, place):
        if is_apart(self.tokens, value):
            name = NewName()
            self.before(value.first, self.helper("Do") + " proc {$ ", name, "}")
            self.tell(name, value)
            return self.behind(value.last, "end}")
        bracketed = self.is_bracketed(value, place)
        if bracketed:
            self.opens(value.first)
        if value.kind in ("if", "case"):
            self.form(value, PLAIN)
        else:
            getattr(self, "write_" + value.kind)(value)
        if bracketed:
            self.behind(value.last, ")")

    def is_bracketed(self, value, place):
        """Whether what is written for a value needs brackets in its place."""
        is_list = value.kind in ("bar", "list") or (value.kind == "string" and self.tokens[value.first].value != [])
        is_operator = value.kind == "operation" and self.said(value.sign) != ":="
        is_negation = value.kind == "prefix" and self.said(value.first) == "~"
        return (is_list and place == PART) or (place != WHOLE and (is_operator or is_negation or value.kind in ("if", "case")))

    def used(self, at):
        """What is written for a name that is used as a value."""
        if at not in self.scopes.as_value:
            return [self.said(at)]
        names = [part for _ in range(BUILT_IN[self.said(at)]) for part in (" ", NewName())]
        return ["proc {$", *names, "} {", self.said(at), *names, "} end"]

    def write_variable(self, value):
        if value.last in self.scopes.as_value:
            self.put(value.last, *self.used(value.last))

    def write_escape(self, value):
        self.drop(value.first)
        self.write_variable(value)

    def write_wild(self, value):
        self.put(value.first, self.helper("Any") + "}")

    def write_hole(self, value):
        self.put(value.first, self.holes[-1])

    def write_integer(self, value):
        """It is kept."""

    def write_atom(self, value):
        self.values.add(value.first)

    def write_unit(self, value):
        self.put(value.first, "'unit'", is_atom=True)

    def write_character(self, value):
        self.put(value.first, str(self.tokens[value.first].value))

    def write_string(self, value):
        self.put(value.first, "|".join([*map(str, self.tokens[value.first].value), "nil"]), is_atom=True)

    def write_record(self, value):
        for part in value.parts:
            self.value(part, WHOLE)

    def write_list(self, value):
        self.drop(value.first)
        for part in value.parts:
            self.value(part, PART)
            self.behind(part.last, "|")
        self.put(value.last, "nil", is_atom=True)

    def write_tuple(self, value):
        self.before(value.first, "'#'(")
        for part in value.parts:
            self.value(part, WHOLE)
        self.drop(*value.signs)
        self.behind(value.last, ")")

    def write_prefix(self, value):
        if self.said(value.first) == "~":
            self.put(value.first, "0 -")
            return self.value(value.value, PART)
        self.put(value.first, self.helper("Get"))
        self.value(value.value, WHOLE)
        self.behind(value.last, "}")

    def write_operation(self, value):
        sign = self.said(value.sign)
        if sign == ":=":
            self.called(value, "Swap", value.left, value.right)
        elif sign in ("andthen", "orelse"):
            self.before(value.first, "if")
            self.value(value.left, WHOLE)
            self.put(value.sign, "then" if sign == "andthen" else "then true else")
            self.value(value.right, WHOLE)
            self.behind(value.last, "else false end" if sign == "andthen" else "end")
        else:
            self.value(value.left, PART)
            self.value(value.right, PART)

    def write_bar(self, value):
        self.value(value.left, PART)
        self.value(value.right, TAIL)

    def write_dot(self, value):
        self.value(value.left, PART)

    def write_select(self, value):
        self.openings.add(value.opening)
        self.called(value, "Dot", value.left, value.feature)

    def write_brackets(self, value):
        self.openings.add(value.first)
        self.value(value.parts[0], WHOLE)

    def write_call(self, value):
        for part in value.parts[1:]:
            self.value(part, WHOLE)

    def write_procedure(self, value):
        for at in value.formals:
            if self.said(at) == "_":
                self.put(at, NewName())
        if self.said(value.first) == "proc":
            self.body(value.body, STATEMENTS)
        elif is_plain(self.tokens, value.body):
            self.body(value.body, PLAIN)
        else:
            name = NewName()
            self.put(value.first, "proc")
            self.behind((value.formals or [value.named])[-1], name)
            self.body(value.body, name)

    # ---- values that are told to a name

    def tell(self, name, value):
        if not is_apart(self.tokens, value):
            self.before(value.first, name, " =")
            self.value(value, WHOLE)
        elif value.kind in FORMS:
            self.form(value, name)
        else:
            getattr(self, "tell_" + value.kind)(name, value)

    def tell_call(self, name, value):
        called, *given = value.parts
        inner = NewName()
        if called.kind != "variable":
            self.put(value.first, "local ", inner, " in")
            self.tell(inner, called)
            self.behind(called.last, *(["{", inner] if value.hole else [name, " = {", inner]))
        self.holes.append(name)
        for part in given:
            self.value(part, WHOLE)
        self.holes.pop()
        if called.kind != "variable":
            self.behind(value.last, "end")

    def tell_operation(self, name, value):
        is_and = self.said(value.sign) == "andthen"
        self.before(value.first, "if")
        self.value(value.left, WHOLE)
        self.put(value.sign, *(["then"] if is_and else ["then ", name, " = true else"]))
        self.tell(name, value.right)
        self.behind(value.last, *(["else ", name, " = false end"] if is_and else ["end"]))

    def tell_brackets(self, name, value):
        self.drop(value.first, value.last)
        self.tell(name, value.parts[0])

    def in_pieces(self, length):
        """New names for what stands behind each piece of a long list but the last, and the `local`s that declare them."""
        names = [NewName() for _ in range(1, -(-length // LONG))]
        return names, [["local", *(part for name in group for part in (" ", name)), " in"] for group in self.grouped(names)]

    def tell_list(self, name, value):
        names, locals_ = self.in_pieces(len(value.parts))
        self.drop(value.first)
        for parts in locals_:
            self.put(value.first, *parts)
        self.put(value.first, name, " =")
        for at, part in enumerate(value.parts, 1):
            self.value(part, PART)
            self.behind(part.last, "|")
            if at % LONG == 0 and at < len(value.parts):
                self.behind(part.last, names[at // LONG - 1], " ", names[at // LONG - 1], " =")
        self.put(value.last, "nil", is_atom=True)
        for _ in locals_:
            self.behind(value.last, "end")

    def tell_string(self, name, value):
        codes = self.tokens[value.first].value
        names, locals_ = self.in_pieces(len(codes))
        for parts in locals_:
            self.put(value.first, *parts)
        for at in range(0, len(codes), LONG):
            said = "|".join(map(str, codes[at : at + LONG])) + "|"
            self.put(value.first, name, " = ", said, *([names[at // LONG]] if at + LONG < len(codes) else ["nil"]))
            name = names[at // LONG] if at + LONG < len(codes) else None
        for _ in locals_:
            self.put(value.first, "end")

    def tell_bar(self, name, value):
        parts, signs = bars(value)
        names, locals_ = self.in_pieces(len(signs))
        for said in locals_:
            self.before(value.first, *said)
        self.before(value.first, name, " =")
        for at, (part, sign) in enumerate(zip(parts, signs), 1):
            self.value(part, PART)
            if at % LONG == 0 and at < len(signs):
                self.behind(sign, names[at // LONG - 1], " ", names[at // LONG - 1], " =")
        self.value(parts[-1], TAIL)
        for _ in locals_:
            self.behind(value.last, "end")

    # ---- forms

    def form(self, form, told):
        getattr(self, "form_" + form.kind)(form, told)

    def form_local(self, form, told):
        if all(phrase.kind == "variable" for phrase in form.declared) and len(form.declared) <= MOST_ITEMS:
            return self.told_phrases(form.phrases, told)
        made = self.declaring(form)
        self.told_phrases(form.phrases, told)
        self.drop(form.last)
        for _ in made:
            self.put(form.last, "end")

    def form_thread(self, form, told):
        self.body(form.body, told)

    def form_raise(self, form, told):
        self.value(form.value, WHOLE)

    def form_if(self, form, told):
        self.choice(form, told, form.last)

    def form_case(self, form, told):
        self.matching(form, told, form.last)

    def choice(self, form, told, end):
        self.value(form.subject, WHOLE)
        self.body(form.body, told)
        self.rest(form, told, end)

    def rest(self, form, told, end):
        """What stands behind the bodies of a form, whose `end` this is."""
        if form.rest is None:
            self.before(end, "else skip" if form.kind == "if" and told == STATEMENTS else NO_ELSE)
        elif form.rest.kind == "else":
            self.body(form.rest.body, told)
        elif form.rest.kind == "if":
            self.put(form.rest.first, "else if")
            self.choice(form.rest, told, end)
            self.ends(1, form.rest, end)
        else:
            self.matching(form.rest, told, end, "else ")
            self.ends(1, form.rest, end)

    def ends(self, number, form, end):
        """So many `end`s behind the last body of a form; before its own `end` where no body stands behind `else`."""
        while form.rest and form.rest.kind != "else":
            form = form.rest
        for _ in range(number):
            if form.rest:
                self.behind(form.rest.last, "end")
            else:
                self.before(end, "end")

    def matching(self, form, told, end, otherwise=""):
        if all(map(is_flat, form.clauses)):
            if otherwise:
                self.put(form.first, otherwise + "case")
            self.value(form.subject, WHOLE)
            self.flat_clauses(form.clauses, told)
            return self.rest(form, told, end)
        name = NewName()
        self.put(form.first, otherwise + "local ", name, " in")
        self.tell(name, form.subject)
        self.drop(form.of)
        self.chain(form.clauses, name, told)
        self.rest(form, told, end)
        self.ends(len(form.clauses), form, end)

    def flat_clauses(self, clauses, told):
        for clause in clauses:
            self.flat_pattern(clause.pattern)
            self.body(clause.body, told)

    def flat_pattern(self, pattern):
        for at in range(pattern.first, pattern.last + 1):
            token = self.tokens[at]
            if (token.kind, token.said) == ("sign", "_"):
                self.put(at, NewName())
            elif token.kind in ("character", "word"):
                self.put(at, constant_text(token))
        if pattern.kind == "tuple":
            self.before(pattern.first, "'#'(")
            self.drop(*pattern.signs)
            self.behind(pattern.last, ")")

    def test(self, pattern, name):
        """A test of a name, and what it is matched with."""
        return [*Test(self.tokens, pattern, name, self.used).parts, " of ", names_text(self.tokens, pattern)]

    def chain(self, clauses, name, told):
        """Clauses that are tried one after the other, each in the `else` of the one before."""
        for clause in clauses:
            if clause.before is not None:
                self.put(clause.before, "else")
            if is_flat(clause):
                self.before(clause.pattern.first, "case ", name, " of")
                self.flat_pattern(clause.pattern)
            else:
                self.tested(clause, name)
            self.body(clause.body, told)

    def tested(self, clause, name):
        pattern = clause.pattern
        test = self.test(pattern, name)
        self.drop(*range(pattern.first, pattern.last + 1))
        if not clause.guard:
            return self.before(pattern.first, "case ", *test)
        names = names_text(self.tokens, pattern)
        self.before(pattern.first, "case case ", *test, " then if")
        self.drop(clause.andthen)
        self.value(clause.guard, WHOLE)
        self.put(clause.then, f"then {names} else false end else false end of {names} then")

    def form_try(self, form, told):
        inner = NewName()
        if told != STATEMENTS:
            self.behind(form.first, "local ", inner, " in")
        self.body(form.body, told if told == STATEMENTS else inner)
        if told != STATEMENTS:
            self.behind(form.body.last, told, " = ", inner, " end")
        if form.clauses:
            self.handlers(form, told)
        if form.final:
            self.body(form.final, STATEMENTS)

    def handlers(self, form, told):
        clauses, name = form.clauses, NewName()
        first, last = clauses[0], clauses[-1].body.last
        if len(clauses) == 1 and not first.guard and first.pattern.kind in ("variable", "wild"):
            self.flat_clauses(clauses, told)
        elif all(map(is_flat, clauses)):
            self.behind(form.catch, name, " then")
            self.behind(form.catch, "case ", name, " of")
            self.flat_clauses(clauses, told)
            self.behind(last, "else raise ", name, " end end")
        else:
            self.behind(form.catch, name, " then")
            self.chain(clauses, name, told)
            self.behind(last, "else raise ", name, " end")
            for _ in clauses:
                self.behind(last, "end")


def refusal(text, fault):
    """The line that tells of a fault."""
    if fault.at is None:
        return f"refused {fault.said}"
    line, column = text.count("\n", 0, fault.at) + 1, fault.at - text.rfind("\n", 0, fault.at)
    return f"refused {line}:{column} {fault.said}"


def translate(text):
    """The translation of a text, and its places; the text has a character for each byte."""
    tokens, tree = read(text)
    scopes = Scopes(tokens, tree)
    fault = scopes.first_fault()
    if fault:
        raise fault
    writer = Writer(text, tokens, tree, scopes)
    return Page(text, writer, "V" + writer.suffix).write()
