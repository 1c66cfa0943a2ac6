"""A plain replay of saved runs over sites, as docs/protocols.md has the sites and their messages: each site is a machine of machine.py with a store
of its own. `World.turn` makes a turn again, and tells what it did; a turn that cannot be made is Wrong.

A variable is a number, as in machine.py: its site and its number there, so that names go up as these do. A thread's name is a pair of both.
"""
from typing import NamedTuple

from machine import Raised, State, Unbound, step, tell, unwind, within

MOST_EQUATIONS = 256
SHIFT = 64


class Wrong(Exception):
    """A turn that cannot be made."""


class Message(NamedTuple):
    """A message that was sent: from which site, to which one, and what it says; with the equations that it takes along, by their variables."""

    kind: str
    source: int
    to: int
    about: tuple
    bundle: dict


class Unit(NamedTuple):
    """A unit of a thread: the item on top of its stack before, and what it did, by the names of the trace."""

    thread: tuple
    item: tuple
    made: tuple
    effect: dict


class Turn(NamedTuple):
    """What a turn did: the equations that its delivery told its site, the requests that it served, its units, the messages that it sent, and its
    lines, each with its unit."""

    learned: list
    served: list
    units: list
    sent: list
    lines: list


def name_of(variable):
    """The site and the number in the name of a variable."""
    return divmod(variable, 1 << SHIFT)


def variables_of(term):
    """The variables of a term: those of a record in the order of its fields, of a procedure those that it keeps in the order of their declarations."""
    if isinstance(term, int):
        return [term]
    if term[0] == "record":
        return [variable for _, variable in term[2]]
    return list(term[4].values()) if term[0] == "procedure" else []


class Token:
    """What a site keeps of a mobile cell: whether it has the token, with the content, or asked for it; who is next; which threads wait, each with
    the variable that is told the old content and the new one."""

    def __init__(self):
        self.is_here, self.content, self.asked, self.next, self.waiting = False, None, False, None, []


class Home:
    """What the home keeps of a stationary cell: its content once it heard of the cell, and before that the requests: a thread, its site, the new
    content, and for a thread of its own the variable that is told the old one."""

    def __init__(self):
        self.is_heard, self.content, self.kept = False, None, []


class Site(State):
    """A site: the machine of its threads, with the tables of the protocols."""

    def __init__(self, number, sites):
        super().__init__()
        self.site, self.sites = number, sites
        self.threads, self.births = {}, {}
        self.numbers, self.outbox, self.learned, self.served = {}, [], [], []
        # variables owned elsewhere that were met; who registered for own ones
        self.met, self.registered = set(), {}
        self.last_asked, self.tokens, self.homes = {}, {}, {}
        # threads that wait: for values of roots, for any binding of variables, or for an answer, with what they asked
        self.waits, self.effect, self.made, self.own_steps = {}, {}, [], 0

    # ---- names

    def number(self, kind):
        found = self.numbers.get(kind, 0)
        self.numbers[kind] = found + 1
        if kind == "variable":
            return self.site << SHIFT | found
        return self.site, found

    def new(self, node=None):
        variable = self.number("variable")
        self.made.append(variable)
        if node is not None:
            self.learn(variable, node)
        return variable

    def birth(self, name, place):
        born = self.number("thread")
        self.effect["thread"] = born
        self.births[born] = self.site if place is None else (place - 1) % self.sites + 1
        return born

    def hold(self, holder, content):
        kind, name, *place = holder
        self.effect[kind] = name
        if kind == "port":
            return super().hold(holder, content)
        if place:
            holder = kind, name, (place[0] - 1) % self.sites + 1
            self.make_stationary(holder, content)
            return holder
        self.last_asked[holder] = self.site
        token = self.tokens[holder] = Token()
        token.is_here, token.content = True, content
        return holder

    # ---- what is known

    def learn(self, variable, term):
        self.store[variable] = term
        self.learned.append((variable, term))

    def can_go_on(self, name):
        """Whether a thread is here and can make a unit."""
        if not self.threads.get(name):
            return False
        kind, roots = self.waits.get(name, ("none", ()))
        if kind == "value":
            return self.known(roots[0]) is not None
        if kind == "binding":
            return any(root in self.store for root in roots)
        return kind == "none"

    def is_idle(self):
        return not any(self.can_go_on(name) for name in self.threads)

    # ---- messages

    def send(self, kind, to, *about):
        self.outbox.append((kind, to, about))

    def take_sent(self):
        """The messages that are to be sent, each with what it takes along."""
        found = [Message(kind, self.site, to, about, self.bundle(BUNDLED[kind](*about))) for kind, to, about in self.outbox]
        self.outbox = []
        return found

    def bundle(self, variables):
        """The first equations that are reached from these variables, breadth first, in the order of their names."""
        found, met, left = {}, set(variables), list(variables)
        at = 0
        while at < len(left) and len(found) < MOST_EQUATIONS:
            variable = left[at]
            at += 1
            if variable in self.store and variable not in found:
                found[variable] = self.store[variable]
                behind = [it for it in variables_of(found[variable]) if it not in met]
                met.update(behind)
                left.extend(behind)
        return dict(sorted(found.items()))

    def meet(self, variables):
        """Registers for names that are new here and not known bound."""
        for variable in variables:
            owner = name_of(variable)[0]
            if owner != self.site and variable not in self.met:
                self.met.add(variable)
                if variable not in self.store:
                    self.send("Register", owner, variable, self.site)

    def deliver(self, message):
        """Takes a message: the equations of its bundle first."""
        for variable, term in message.bundle.items():
            if variable not in self.store:
                self.learn(variable, term)
        self.meet(MENTIONED[message.kind](*message.about))
        for variable, term in message.bundle.items():
            self.meet([variable, *variables_of(term)])
        getattr(self, "on_" + message.kind)(*message.about)

    # ---- variables

    def on_Register(self, variable, asking):
        if variable in self.store:
            self.send("Binding", asking, variable, self.store[variable])
        else:
            self.registered.setdefault(variable, []).append(asking)

    def on_BindReq(self, variable, thread, term):
        if variable not in self.store:
            self.served.append((thread, None, {"learned": [(variable, term)]}))
            self.bind(variable, term)

    def on_Binding(self, variable, term):
        if variable not in self.store:
            self.learn(variable, term)

    def bind(self, variable, term):
        """An own variable is bound, and who registered is told."""
        self.learn(variable, term)
        for asking in self.registered.pop(variable, ()):
            self.send("Binding", asking, variable, term)

    def bind_or_ask(self, name, variable, side):
        """A thread is to bind a variable to what the side is, or, of two variables without a value, the greater one to the lesser."""
        if isinstance(side, int):
            side = side if self.known(side) is None else self.known(side)
        if isinstance(side, int) and side > variable:
            variable, side = side, variable
        owner = name_of(variable)[0]
        if owner == self.site:
            self.bind(variable, side)
        else:
            self.send("BindReq", owner, variable, name, side)
            self.wait(name, "binding", variable)

    def wait(self, name, kind, *roots):
        self.waits[name] = kind, roots
        self.effect["waits"] = kind, roots

    # ---- threads

    def on_Spawn(self, thread, item):
        self.threads[thread] = (item, ())

    def answered(self, name, variable, side):
        """A thread's request is served: it goes on by a tell."""
        del self.waits[name]
        self.threads[name] = self.threads[name][1]
        tell(self, name, variable, side)

    # ---- mobile cells

    def exchange(self, name, cell, new, told):
        if len(cell) == 3:
            return self.exchange_at_home(name, cell, new, told)
        token = self.tokens.setdefault(cell, Token())
        if token.is_here:
            self.exchanged(name, cell, token, new, told)
            return
        token.waiting.append((name, told, new))
        self.wait(name, "cell", cell)
        if not token.asked:
            token.asked = True
            manager = cell[1][0]
            if manager == self.site:
                self.on_Get(cell, self.site)
            else:
                self.send("Get", manager, cell, self.site)

    def exchanged(self, name, cell, holder, new, told):
        """A step of a thread here: the content of a cell that is here is exchanged."""
        old, holder.content = holder.content, new
        self.effect["exchange"] = cell, old, new
        self.threads[name] = self.threads[name][1]
        tell(self, name, told, old)

    def on_Get(self, cell, asking):
        last, self.last_asked[cell] = self.last_asked[cell], asking
        if last == self.site:
            self.on_Forward(cell, asking)
        else:
            self.send("Forward", last, cell, asking)

    def on_Forward(self, cell, following):
        self.tokens[cell].next = following
        self.leave(cell)

    def on_Put(self, cell, content):
        token = self.tokens[cell]
        token.is_here, token.content, token.asked = True, content, False
        for name, told, new in token.waiting:
            self.served.append((name, self.threads[name][0], {"exchange": (cell, token.content, new)}))
            self.answered(name, told, token.content)
            token.content = new
        token.waiting = []
        self.leave(cell)

    def leave(self, cell):
        """The token goes to its successor, where it is here and one is known."""
        token = self.tokens[cell]
        if token.is_here and token.next is not None:
            self.send("Put", token.next, cell, token.content)
            token.is_here, token.content, token.next = False, None, None

    # ---- stationary cells

    def make_stationary(self, cell, content):
        home = cell[2]
        if home == self.site:
            self.on_CellMake(cell, content)
        else:
            self.send("CellMake", home, cell, content)

    def exchange_at_home(self, name, cell, new, told):
        if cell[2] != self.site:
            self.waits[name] = "cell", (cell,)
            self.effect["waits"] = self.waits[name]
            self.send("CellAsk", cell[2], cell, name, self.site, new)
            return
        home = self.homes.setdefault(cell, Home())
        if home.is_heard:
            self.exchanged(name, cell, home, new, told)
        else:
            home.kept.append((name, self.site, new, told))
            self.wait(name, "cell", cell)

    def on_CellMake(self, cell, content):
        home = self.homes.setdefault(cell, Home())
        home.is_heard, home.content = True, content
        for request in home.kept:
            self.serve(cell, home, *request)
        home.kept = []

    def on_CellAsk(self, cell, name, asking, new):
        home = self.homes.setdefault(cell, Home())
        if home.is_heard:
            self.serve(cell, home, name, asking, new)
        else:
            home.kept.append((name, asking, new))

    def serve(self, cell, home, name, asking, new, told=None):
        old, home.content = home.content, new
        item = self.threads[name][0] if asking == self.site else None
        self.served.append((name, item, {"exchange": (cell, old, new)}))
        if asking == self.site:
            self.answered(name, told, old)
        else:
            self.send("CellOld", asking, name, old)

    def on_CellOld(self, name, old):
        _, statement, environment = self.threads[name][0]
        self.answered(name, environment[statement.parts[1]], old)

    # ---- ports

    def send_to(self, name, port, value):
        owner = port[1][0]
        if owner != self.site:
            self.wait(name, "port", port)
            self.send("PortSend", owner, port, name, self.site)
            return
        old, new = self.move_end(port)
        self.effect["send"] = port, old, new
        self.threads[name] = self.threads[name][1]
        tell(self, name, old, pair(value, new))

    def move_end(self, port):
        old, self.held[port] = self.held[port], self.new()
        return old, self.held[port]

    def on_PortSend(self, port, name, asking):
        old, new = self.move_end(port)
        self.served.append((name, None, {"send": (port, old, new)}))
        self.send("PortEnd", asking, name, old, new)

    def on_PortEnd(self, name, old, new):
        _, statement, environment = self.threads[name][0]
        self.answered(name, old, pair(environment[statement.parts[1]], new))

    # ---- units

    def unit(self, name):
        """A unit of a thread, and the line that it printed, or None."""
        self.waits.pop(name, None)
        self.effect, self.made, self.learned = {}, [], []
        item, line = self.threads[name][0], None
        try:
            line = self.noticed(name, step(self, name))
        except Unbound as waits:
            is_test = item[0] == "run" and item[1].kind == "tell" and item[1].parts[1][:2] in (("operation", "=="), ("operation", "\\="))
            self.wait(name, "binding" if is_test else "value", *sorted(waits.args))
        except Raised as exception:
            unwind(self, name, exception)
            self.effect["raised"] = self.made[-1]
        if item[0] == "run" and item[1].kind == "raise":
            self.effect["raised"] = item[2][item[1].parts[0]]
        self.own_steps += "waits" not in self.effect
        if not self.threads[name]:
            self.effect["end"] = True
            self.ended += 1
            del self.threads[name]
        self.place_births()
        return Unit(name, item, tuple(self.made), {**self.effect, "learned": self.learned}), line

    def noticed(self, name, noticed):
        """Makes a step that others may notice. The line that it prints, or None."""
        kind, *parts = noticed or ("nothing",)
        if kind == "print":
            self.threads[name] = self.threads[name][1]
            return parts[0]
        if kind == "bind":
            self.bind_or_ask(name, *parts)
        elif kind == "exchange":
            self.exchange(name, *parts)
        elif kind == "send":
            self.send_to(name, *parts)
        return None

    def place_births(self):
        """A thread that was made for another site goes there."""
        for born, place in self.births.items():
            if place != self.site:
                (item, _) = self.threads.pop(born)
                self.send("Spawn", place, born, item)
        self.births = {}


def pair(head, tail):
    return "record", "|", ((1, head), (2, tail))


# The variables from which the bundle of a message is reached, in their order, and those that the message has itself.
NONE = lambda *about: []
OF_CONTENT = lambda cell, content: [content]
BUNDLED = {
    "Spawn": lambda thread, item: list(item[2].values()),
    "Register": NONE,
    "BindReq": lambda variable, thread, term: variables_of(term),
    "Binding": lambda variable, term: variables_of(term),
    "Get": NONE,
    "Forward": NONE,
    "Put": OF_CONTENT,
    "PortSend": NONE,
    "PortEnd": lambda thread, old, new: [old, new],
    "CellMake": OF_CONTENT,
    "CellAsk": lambda cell, thread, asking, new: [new],
    "CellOld": OF_CONTENT,
}
MENTIONED = BUNDLED


class World:
    """The sites of a run, what was sent, and what was delivered."""

    def __init__(self, program, sites, most_steps, most_messages):
        self.sites = [Site(number, sites) for number in range(1, sites + 1)]
        self.most_steps, self.most_messages = most_steps, most_messages
        self.sent, self.delivered, self.picks, self.end = [], set(), 0, None
        first = self.sites[0]
        first.threads[first.number("thread")] = (within(program, {}), ())

    def turn(self, site, message, units):
        """Makes a turn: the number of the message that it delivers, or None, and the threads of its units."""
        here, lines = self.sites[site - 1], []
        here.learned, here.served = [], []
        made, learned, served = [], [], []
        if self.end is not None:
            raise Wrong("the run is over")
        sent = []
        if message is not None:
            here.deliver(self.taken(site, message))
            sent, learned, served = here.take_sent(), here.learned, here.served
        for number, thread in enumerate(units):
            if not here.can_go_on(thread):
                raise Wrong(f"thread {thread[0]}.{thread[1]} cannot go on at site {site}")
            unit, line = here.unit(thread)
            made.append(unit)
            sent += here.take_sent()
            self.picks += "waits" not in unit.effect
            if line is not None:
                lines.append((number, line))
        self.picks += len(served)
        served = [Unit(name, item or self.item_of(name), (), effect) for name, item, effect in served]
        self.sent += sent
        self.end = self.end_after(here)
        return Turn(learned, served, made, sent, lines)

    def item_of(self, name):
        """What a thread stands before, wherever it is."""
        return next(site.threads[name][0] for site in self.sites if name in site.threads)

    def taken(self, site, number):
        """A message that travels to a site."""
        if number >= len(self.sent) or number in self.delivered or self.sent[number].to != site:
            raise Wrong(f"message {number} does not travel to site {site}")
        self.delivered.add(number)
        return self.sent[number]

    def end_after(self, here):
        """The end line by which a turn of a site ended the run, or None."""
        if len(self.sent) > self.most_messages:
            return "stopped messages"
        if here.own_steps >= self.most_steps and not here.is_idle():
            return f"stopped steps site={here.site}"
        if len(self.delivered) == len(self.sent) and all(site.is_idle() for site in self.sites):
            waiting = sum(len(site.threads) for site in self.sites)
            return f"quiescent ended={sum(site.ended for site in self.sites)} waiting={waiting}"
        return None
