"""The grammar of the book's language as a table, with a recogniser of any context-free grammar: `refused_at(symbols)` is the first token that no
text continues, found by nothing but the table. `sentence(draw)` draws a text of it. The levels of nesting are not known here."""
from functools import lru_cache

# Alternatives are divided by `/`. What begins with v, and fields, items and given, may have one `$`, and then just one of its parts has it.
TABLE = """
text: phrases blocks / blocks1
blocks: / blocks1
blocks1: declare phrases blocks / declare phrases in many blocks
many: / phrase many
phrases: phrase many
phrase: skip / v1 equals / define / forp pattern in over do body end
equals: / = v1 equals
over: v1 / v1 .. v1 / v1 .. v1 ; v1
define: proc { variable formals } body end / fun { variable formals } body end
formals: / formal formals
formal: variable / _
body: phrases / phrases in phrases
v1: v2 / v2 := v1
v2: v3 / v3 orelse v2
v3: v4 / v4 andthen v3
v4: v5 / v5 compares v5
compares: == / \\= / =< / < / >= / >
v5: v6 / v6 | v5
v6: v7 / v7 # vtuple
vtuple: v7 / v7 # vtuple
v7: v8 / v7 + v8 / v7 - v8
v8: v9 / v8 * v9 / v8 div v9 / v8 mod v9
v9: v10 / ~ v9
v10: v11 / v10 . feature / v10 . ( v1 )
feature: variable / atom / integer
v11: vprimary / @ v11
vprimary: variable / ! variable / _ / constant / label ( fields ) / [ v1 items ] / ( v1 ) / call / made / form
constant: integer / character / string / atom / unit
fields: / field fields
field: v1 / atom : v1 / integer : v1
items: / v1 items
call: { v1 items } / { v1 items$ }
made: proc { $ formals } body end / fun { $ formals } body end
form: if choice end / case matching end / local phrases in phrases end / thread site body end / try body handlers end / raise v1 end
site: / at integer
choice: v1 then body rest
rest: / else body / elseif choice / elsecase matching
matching: v1 of clauses rest
clauses: clause / clause [] clauses
clause: pattern then body / pattern andthen v1 then body
handlers: catch clauses / catch clauses finally body / finally body
pattern: ptuple / ptuple | pattern
ptuple: part / part # ptuple
part: variable / ! variable / _ / constant / label ( pfields ) / [ pattern pitems ] / ( pattern )
pfields: / pfield pfields
pfield: pattern / atom : pattern / integer : pattern
pitems: / pattern pitems
"""
SPELT = {
    "variable": ("X", "Y", "Browse"), "integer": ("1", "~2"), "character": ("&a",), "string": ('"s"',), "atom": ("a", "'b c'"), "label": ("f",),
    "forp": ("for",),
}


def may_have_hole(name):
    return name in ("field", "fields", "items") or (name[0] == "v" and name != "variable")


def rules():
    """The right sides of each name. A name with a `$` behind it is that of texts which have one."""
    made = {}
    for line in TABLE.strip().split("\n"):
        name, sides = line.split(":", 1)
        for side in (side.split() for side in f"{sides} ".split(" / ")):
            made.setdefault(name, []).append(tuple(side))
            if may_have_hole(name):
                places = [at for at, part in enumerate(side) if may_have_hole(part)]
                made.setdefault(name + "$", []).extend(tuple(part + "$" * (at == one) for at, part in enumerate(side)) for one in places)
    made["vprimary$"].append(("$",))
    return made


RULES = rules()


def symbols(tokens):
    """The symbols of the table that these tokens are."""
    found = []
    for at, token in enumerate(tokens):
        behind = tokens[at + 1].said if at + 1 < len(tokens) else ""
        if token.kind == "atom" and token.said == "for" and begins_pattern(tokens[at + 1 :]):
            found.append("forp")
        elif token.kind == "atom" and token.said == "do" and behind != ":":
            found.append("do")
        elif token.kind == "atom" and behind == "(" and (at == 0 or tokens[at - 1].said != "."):
            found.append("label")
        else:
            found.append(token.said if token.kind in ("word", "sign") else token.kind)
    return found


def begins_pattern(tokens):
    return tokens and (tokens[0].kind in SPELT or tokens[0].said in ("!", "_", "unit", "["))


class Recogniser:
    """Reads symbols from left to right (Earley, An efficient context-free parsing algorithm, CACM 1970). An item is a name, one of its right
    sides, how much of it was read, and where it began; each set has the items at one place."""

    def __init__(self):
        self.sets, self.waiting = [], []
        self.close([("text", side, 0, 0) for side in RULES["text"]])

    def close(self, items):
        """Adds what the items at the next place lead to."""
        at, seen, waiting, ended = len(self.sets), set(items), {}, set()
        open_ = list(items)
        while open_:
            name, side, read, start = open_.pop()
            if read == len(side):
                if start == at:
                    ended.add(name)
                before = waiting if start == at else self.waiting[start]
                new = [(*item[:2], item[2] + 1, item[3]) for item in before.get(name, ())]
            else:
                wanted = side[read]
                waiting.setdefault(wanted, []).append((name, side, read, start))
                new = [(wanted, each, 0, at) for each in RULES.get(wanted, ())]
                if wanted in ended:
                    new.append((name, side, read + 1, start))
            open_ += [item for item in new if item not in seen]
            seen.update(new)
        self.sets.append(seen)
        self.waiting.append(waiting)

    def read(self, symbol):
        """Reads a symbol, and says whether a text continues so."""
        found = self.waiting[-1].get(symbol, ())
        if found:
            self.close([(name, side, read + 1, start) for name, side, read, start in found])
        return bool(found)

    def expected(self):
        """The symbols that may come next; `end of text` where the text may end."""
        ends = any(name == "text" and read == len(side) for name, side, read, _ in self.sets[-1])
        return {wanted for wanted in self.waiting[-1] if wanted not in RULES} | ({"end of text"} if ends else set())


def refused_at(said):
    """How many symbols a text can begin with, and what may come behind these."""
    recogniser = Recogniser()
    for at, symbol in enumerate(said):
        if not recogniser.read(symbol):
            return at, recogniser.expected()
    return len(said), recogniser.expected()


# Names whose first side is drawn most often, so that drawn texts stay short.
SHORTEST_FIRST = [name for name, sides in RULES.items() if len(sides) > 1 and len(sides[0]) < 2 and name.rstrip("$") not in ("vprimary", "phrase")]


@lru_cache(None)
def least_depth(name, most=30):
    """How deep a derivation must be, where it is at most so deep; else a number that is greater."""
    if name not in RULES:
        return 0
    if most == 0:
        return 99
    return 1 + min(max((least_depth(part, most - 1) for part in side), default=0) for side in RULES[name])


def sentence(draw, name, depth=60):
    """Tokens of what a name of the table stands for, drawn at random, mostly by derivations that are no deeper."""
    if name not in RULES:
        return [draw.choice(SPELT.get(name, (name,)))]
    sides = [side for side in RULES[name] if all(least_depth(part) < depth for part in side)]
    if not sides or (name in SHORTEST_FIRST and sides[0] == RULES[name][0] and draw.random() < 0.85):
        sides = [min(RULES[name], key=lambda side: max(map(least_depth, side), default=0))]
    return [token for part in draw.choice(sides) for token in sentence(draw, part, depth - 1)]
