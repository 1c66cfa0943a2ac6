"""Why two outputs of a text differ: the two statements of two threads whose order decides between them.

A search that is done knows what comes behind each of its branches. From the start on it goes where both outputs can still come. At the first branch
behind which none of the steps leaves both, one step leads to the one output and one of another thread to the other."""
from keys import key
from machine import State
from orders import end_line, made


class Last:
    """The statement that each thread made last, and the one that started it, in place of a trace: what a thread still has to do of a statement has
    none of its own."""

    def __init__(self, last=None, start=None):
        self.last, self.start = last or {}, start or {}

    def copy(self):
        return Last(dict(self.last), dict(self.start))

    def add(self, state, name, item, line=None):
        if item[0] == "run" and item[1].kind != "sequence":
            self.last[name] = item[1]
        if item[0] == "run" and item[1].kind == "thread":
            self.start[name + (state.births[name],)] = item[1]

    def wait(self, state):
        pass

    def statement(self, state, name):
        """The statement that a thread stands before or in, the one that started it, or None of the first, and whether it reports an exception."""
        item = state.threads[name][0]
        return item[1] if item[0] == "run" else self.last.get(name), self.start.get(name), item[0] == "report"


class Way:
    """A state on the way to outputs: the lines before it, the steps of its branch, and which outputs come behind it."""

    def __init__(self, orders, state, lines, last):
        self.state, self.last = state, last
        threads, self.lines = orders.to_branch(state, lines, last)
        self.steps = threads.next
        if threads.next:
            self.found = {self.lines + rest for rest in orders.after.get(key(state)) or ()}
        else:
            self.found = {(*self.lines, end_line(state))}

    def behind(self, orders):
        """For each step its statement and the way that it leads to."""
        for name, noticed in self.steps.items():
            child, last = self.state.copy(), self.last.copy()
            said = last.statement(self.state, name)
            yield said, Way(orders, child, self.lines + made(child, name, noticed, last), last)


def decision(orders, one, other):
    """The statements whose order decides between two outputs, each with the start of its thread: the one that comes first where the first output
    comes, and the one that does where the other comes. None where the search does not tell."""
    way = Way(orders, State(orders.program), (), Last())
    while way is not None and way.steps:
        ways = list(way.behind(orders))
        way = next((onward for _, onward in ways if one in onward.found and other in onward.found), None)
        if way is None:
            firsts = [next((said for said, onward in ways if output in onward.found), None) for output in (one, other)]
            return None if None in firsts else tuple(firsts)
    return None


def place(text, at):
    before = text[:at].split("\n")
    return f"{len(before)}:{len(before[-1].encode()) + 1}"


def said_line(text, places, statement):
    """How the first line of a statement begins."""
    at, end = places[id(statement)]
    line = text[at:end].split("%")[0].strip().split("\n")[0].strip()
    return line if len(line) <= 70 else line[:70] + " .."


def shown(text, places, said):
    """A statement as its first line begins, with its place, and that of its thread."""
    statement, start, reports = said
    if statement is None:
        return "the line of an exception"
    at, line = places[id(statement)][0], said_line(text, places, statement)
    thread = f"the thread of {place(text, places[id(start)][0])}" if start else "the first thread"
    return f"{'the exception behind ' if reports else ''}{line} of {place(text, at)} in {thread}"
