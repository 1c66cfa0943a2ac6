"""The trace of a saved run, as the page of a run reads it: `trace_text(run)` makes the run again by the plain replay of sites.py and tells it as JSON,
`oztrace` version 1. A run that is wrong is WrongRun, with the number of its first wrong entry."""
import json

from machine import matched
from reading import Name, inner, read_with_places
from sites import World, Wrong, name_of

KINDS = {"NewCell": "cell", "NewCellAt": "cellat", "NewPort": "port"}
OF_VALUES = {"procedure": "proc", "selection": "select"}
LARGEST = 2**53


class WrongRun(Exception):
    def __init__(self, entry, why):
        super().__init__(why)
        self.entry = entry


# ---- rows: the statements of the program, each before those that it has


def kind_of(statement):
    kind, parts, _ = statement
    if kind == "sequence":
        return "seq" if parts else "skip"
    if kind == "tell":
        value = parts[1]
        if value[0] == "operation":
            return "test" if value[1] in ("==", "\\=") else "calc"
        return OF_VALUES.get(value[0], "tell")
    return KINDS.get(kind, kind.lower())


def names_of(statement):
    """The names that a statement itself uses; of a `local` those that it declares."""
    kind, parts, _ = statement
    if kind in ("sequence", "thread", "try"):
        return ()
    if kind == "local":
        return parts[0]
    if kind == "tell":
        return parts[0], *names_in(*parts[1])
    if kind == "call":
        return parts[0], *parts[1]
    return parts[:1] if kind in ("if", "case", "raise") else parts


def names_in(kind, *parts):
    """The names in a value that is told, but those of a procedure's body."""
    if kind == "variable":
        return parts
    if kind == "record":
        return tuple(name for _, name in parts[1])
    if kind == "operation":
        return parts[1:]
    if kind == "selection":
        return (parts[0], parts[1][1]) if parts[1][0] == "variable" else parts[:1]
    return ()


class Rows:
    """The rows of a program's statements, with their places in its text."""

    def __init__(self, text):
        self.program, self.places = read_with_places(text)
        self.lines, self.ascii = [0], text.isascii()
        for at, character in enumerate(text):
            if character == "\n":
                self.lines.append(at + 1)
        self.text, self.numbers, self.statements = text, {}, []
        left = [self.program]
        while left:
            statement = left.pop()
            self.numbers[id(statement)] = len(self.statements)
            self.statements.append(statement)
            left.extend(reversed(inner(statement)))

    def place(self, at):
        """The line and the column of a place, both from 1, the column in bytes."""
        low, high = 0, len(self.lines)
        while high - low > 1:
            middle = (low + high) // 2
            low, high = (middle, high) if self.lines[middle] <= at else (low, middle)
        before = self.text[self.lines[low] : at]
        return [low + 1, (len(before) if self.ascii else len(before.encode())) + 1]

    def named(self, name):
        """An identifier with its place; 0 where sugar made it."""
        return [name.split("'")[0], self.place(name.place)] if isinstance(name, Name) else 0

    def row(self, statement):
        start, end = self.places[id(statement)]
        found = [kind_of(statement), self.place(start), self.place(end), list(map(self.named, names_of(statement)))]
        if found[0] == "proc":
            _, formals, body = statement.parts[1]
            found += [self.numbers[id(body)], list(map(self.named, formals))]
        if found[0] == "try":
            found.append(self.named(statement.parts[1]))
        if found[0] == "case":
            pattern = statement.parts[1]
            found.append([self.named(name) for _, name in pattern[2]] if pattern[0] == "record" else [])
        return found

    def all(self):
        return map(self.row, self.statements)


# ---- entries


def named(name):
    return f"{name[0]}.{name[1]}"


def variable(number):
    return named(name_of(number))


def integer(value):
    return value if abs(value) < LARGEST else {"i": str(value)}


def feature(value):
    return {"a": value} if isinstance(value, str) else integer(value)


class Telling:
    """Tells what the turns of a run did."""

    def __init__(self, rows):
        self.rows = rows

    def term(self, term):
        if isinstance(term, int):
            return variable(term)
        kind, said, *more = term
        if kind == "integer":
            return integer(said)
        if kind == "atom":
            return {"a": said}
        if kind == "record":
            return {"l": said, "f": [[feature(it), variable(value)] for it, value in more[0]]}
        if kind == "procedure":
            return {"q": named(said), "n": len(more[0]), "r": self.rows.numbers[id(more[1])]}
        return {"c": named(said), **({"h": more[0]} if more else {})} if kind == "cell" else {"p": named(said)}

    def equations(self, learned):
        return [[variable(left), self.term(term)] for left, term in learned]

    def unit(self, site, unit):
        kind, *parts = unit.item
        row, used = {"goals": -1, "mark": -2, "report": -3}.get(kind), []
        if kind == "run":
            row, used = self.rows.numbers[id(parts[0])], self.used(site, unit, *parts)
        found = [named(unit.thread), row, list(map(variable, used)), self.effect(unit)]
        while len(found) > 2 and not found[-1]:
            found.pop()
        return found

    def used(self, site, unit, statement, environment):
        """The variables that a row names, those that a `local` makes, and those that a pattern matched."""
        if statement.kind == "local":
            return unit.made
        found = [environment[name] for name in names_of(statement)]
        if statement.kind == "case" and "waits" not in unit.effect:
            found += (matched(statement.parts[1], site.known(found[0])) or {}).values()
        return found

    def effect(self, unit):
        told, effect = {}, unit.effect
        if "waits" in effect:
            kind, roots = effect["waits"]
            if kind in ("cell", "port"):
                told["wc" if kind == "cell" else "wp"] = named(roots[0][1])
            else:
                told["w"] = list(map(variable, roots))
        if effect.get("learned"):
            told["eq"] = self.equations(effect["learned"])
        for key, name in (("t", "thread"), ("c", "cell"), ("p", "port")):
            if name in effect:
                told[key] = named(effect[name])
        for change in ("exchange", "send"):
            if change in effect:
                holder, old, new = effect[change]
                told["x"] = [named(holder[1]), variable(old), variable(new)]
        if "raised" in effect:
            told["r"] = variable(effect["raised"])
        if "end" in effect:
            told["end"] = 1
        return told

    def message(self, message):
        return [message.kind, message.to, *getattr(self, "about_" + message.kind)(*message.about)]

    def about_Spawn(self, thread, item):
        return named(thread), self.rows.numbers[id(item[1])]

    def about_Register(self, left, asking):
        return (variable(left),)

    def about_BindReq(self, left, thread, term):
        return variable(left), self.term(term), named(thread)

    def about_Binding(self, left, term):
        return variable(left), self.term(term)

    def about_Get(self, cell, site):
        return named(cell[1]), site

    about_Forward = about_Get

    def about_Put(self, cell, content):
        return named(cell[1]), variable(content)

    about_CellMake = about_Put

    def about_PortSend(self, port, thread, asking):
        return named(port[1]), named(thread)

    def about_PortEnd(self, thread, old, new):
        return named(thread), variable(old), variable(new)

    def about_CellAsk(self, cell, thread, asking, new):
        return named(cell[1]), named(thread), variable(new)

    def about_CellOld(self, thread, content):
        return named(thread), variable(content)

    def entry(self, site, given, turn):
        told = {"s": given.site}
        if given.message is not None:
            told["m"] = given.message
        if turn.learned:
            told["eq"] = self.equations(turn.learned)
        if turn.served:
            told["d"] = [self.unit(site, unit) for unit in turn.served]
        told["u"] = [self.unit(site, unit) for unit in turn.units]
        told["out"] = list(map(self.message, turn.sent))
        return {**told, "lines": [list(line) for line in turn.lines]}


# ---- the whole


def replayed(run, rows):
    """The world of a run, and each of its entries, as it was made again."""
    world, telling = World(rows.program, run.sites, run.steps, run.messages), Telling(rows)
    made = []
    for number, entry in enumerate(run.entries):
        try:
            turn = world.turn(entry.site, entry.message, entry.units)
        except Wrong as wrong:
            raise WrongRun(number, str(wrong)) from wrong
        if [line.encode() for _, line in turn.lines] != list(entry.lines):
            raise WrongRun(number, f"its lines are {[line for _, line in turn.lines]}")
        made.append(telling.entry(world.sites[entry.site - 1], entry, turn))
    end = world.end or "out of memory"
    if run.end != end.encode():
        raise WrongRun(len(run.entries), f"the end line is {end}")
    return world, made


def written(value):
    """A value as JSON. No `<` stands in it, so that it may stand in a page."""
    return json.dumps(value, ensure_ascii=False, separators=(",", ":")).replace("<", "\\u003c")


def trace_text(run, is_checked):
    """The trace of a saved run, and its world at the end."""
    text = run.text.decode()
    rows = Rows(text)
    world, entries = replayed(run, rows)
    head = {"oztrace": 1, "levels": 5, "text": text, "sites": run.sites, "steps": run.steps, "messages": run.messages}
    listed = lambda name, values: f'"{name}":[\n' + ",\n".join(map(written, values)) + "]"
    end = {"end": run.end.decode(), "checked": is_checked}
    parts = [written(head)[:-1], listed("rows", rows.all()), listed("entries", entries), written(end)[1:]]
    return ",\n".join(parts) + "\n", world
