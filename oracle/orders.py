"""All outputs of a text: `outputs(text)` goes through all orders of its threads, and is exact. See README.md for why it may leave
orders out; plain.py leaves out none, and check holds one to the other.

- A step that no other thread can notice is made at once.
- A tell is made at once, too: two tells may change places, as long as none fails. Where one fails, all is begun again, and a tell
  to a variable that others can come to is a choice as any other.
- Where none of the steps that others can make before a thread goes on tells its next one from a later one, that one alone is made.
- States that differ in names alone are one (keys.py).
"""
import time

from counting import MOST_AMOUNT, MOST_CONTENT, OTHER, Counts
from keys import key
from machine import Raised, State, Unbound, step, take, unwind
from reading import read_with_places
from saved import NO_TRACE, Trace, saved_run

MOST_STEPS = 100_000
MOST_STATES = 100_000
MOST_OUTPUTS = 10_000


class TooMany(Exception):
    """What is gone through has come to a limit: why, and the outputs that were found until then."""

    def __init__(self, why, found=frozenset()):
        super().__init__(why)
        self.why, self.found = why, found


class TellFailed(Exception):
    """Two tells cannot both be made: their order counts."""


class Limits:
    """How much is gone through: states, outputs and seconds. None of these is without bound."""

    def __init__(self, states=MOST_STATES, outputs=MOST_OUTPUTS, seconds=None):
        self.states, self.outputs = states, outputs
        self.until = None if seconds is None else time.monotonic() + seconds
        self.seconds = seconds

    def check_time(self):
        if self.until is not None and time.monotonic() > self.until:
            raise TooMany(f"more than {self.seconds:g} seconds")


class Threads:
    """What the threads of a state do next: the steps of those that come to one that may be noticed, and what the others wait for."""

    def __init__(self, state, limits, tells_at_once, trace=NO_TRACE):
        self.state, self.limits, self.tells_at_once, self.trace = state, limits, tells_at_once, trace
        self.next, self.awaited = {}, {}
        self.settle()

    def settle(self):
        """Runs all threads alone, with those that are born, until none can go on alone."""
        moved = True
        while moved:
            self.next, self.awaited, moved = {}, {}, False
            for name in list(self.state.threads):
                moved |= self.run_alone(name)

    def run_alone(self, name):
        """Runs a thread as far as no other can notice it. Whether it made a step."""
        state = self.state
        for made in range(MOST_STEPS):
            if made % 1000 == 0:
                self.limits.check_time()
            if not state.threads[name]:
                del state.threads[name]
                state.ended += 1
                return True
            item = state.threads[name][0]
            try:
                noticed = self.advance(name)
            except Unbound as waits:
                self.awaited[name] = waits.args
                return made > 0
            if noticed and not self.is_own(name, noticed):
                self.next[name] = noticed
                return made > 0
            if noticed:
                take(state, name, noticed)
            self.trace.add(state, name, item)
        raise TooMany(f"a thread that makes {MOST_STEPS:,} steps alone")

    def advance(self, name):
        try:
            return step(self.state, name)
        except Raised as exception:
            if self.tells_at_once and exception.args[0] == "failure":
                raise TellFailed from exception
            unwind(self.state, name, exception)
            return None

    def is_own(self, name, noticed):
        """Whether no other thread can notice this step: what is bound, exchanged or sent to is out of their reach, or a tell is made at once."""
        if noticed[0] == "print":
            return False
        if noticed[0] == "bind" and self.tells_at_once:
            return True
        others = (stack for other, stack in self.state.threads.items() if other != name)
        return not self.touches(noticed, self.state.reached(others)[0])

    def touches(self, noticed, reached):
        """Whether who comes to `reached` may notice a bind, an exchange or a send. Of two unbound variables one out of reach is enough."""
        kind, *sides = noticed
        if kind in ("exchange", "send") or not (isinstance(sides[1], int) and self.state.known(sides[1]) is None):
            sides = sides[:1]
        return all(side in reached for side in sides)

    def before(self, name):
        """The threads that may make a step before this one does: who can go on, and who waits for what one of these may bind."""
        found = {other: self.state.threads[other] for other in self.next if other != name}
        while found:
            reached = self.state.reached(found.values())[0]
            woken = [other for other, roots in self.awaited.items() if other not in found and not reached.isdisjoint(roots)]
            if not woken:
                break
            found.update((other, self.state.threads[other]) for other in woken)
        return list(found.values())

    def is_alone(self, name, counts):
        """Whether the next step of this thread may be made before all others: none that comes before it can tell the difference."""
        noticed, others = self.next[name], self.before(name)
        if not others:
            return True
        if noticed[0] == "print":
            return False
        reached, procedures = self.state.reached(others)
        if not self.touches(noticed, reached):
            return True
        return self.tells_at_once and self.counts_alike(name, others, procedures, counts)

    def counts_alike(self, name, others, procedures, counts):
        """Whether this thread counts in a cell that has an integer, and the others do nothing to cells but count."""
        item, rest = self.state.threads[name]
        if self.next[name][0] != "exchange" or id(item[1]) not in counts.amounts:
            return False
        content = self.state.known(self.state.held[self.next[name][1]])
        if content is None or content[0] != "integer" or abs(content[1]) > MOST_CONTENT:
            return False
        code = [(node[3], node[4]) for node in procedures]
        for stack in [self.state.threads[name][:1] + ((rest[0], ()),), *others]:
            code.extend(code_of(stack, counts))
        return all(self.only_counts(counts.deed(statement), environment) for statement, environment in code)

    def only_counts(self, deed, environment):
        return deed is not OTHER and all(self.is_amount(environment.get(name)) for name in deed)

    def is_amount(self, variable):
        node = None if variable is None else self.state.known(variable)
        return node is not None and node[0] == "integer" and abs(node[1]) <= MOST_AMOUNT


def code_of(stack, counts):
    """The statements of a stack with the variables that they have. That of a count's exchange are those of what comes behind it."""
    while stack:
        (kind, *parts), stack = stack
        if kind == "run":
            counted = id(parts[0]) in counts.amounts
            yield parts[0], stack[0][2] if counted else parts[1]
        elif kind == "mark":
            yield parts[1], parts[2]


def end_line(state):
    return f"quiescent ended={state.ended} waiting={len(state.threads)}"


def made(state, name, noticed, trace=NO_TRACE):
    """Makes a step that others may notice. The lines that it prints: one, or none."""
    item = state.threads[name][0]
    line = take(state, name, noticed)
    trace.add(state, name, item, line)
    return () if line is None else (line,)


class Branch:
    """A state that has several next steps: those that are left, the lines before it, and the outputs found behind it."""

    def __init__(self, key, state, next_steps, lines):
        self.key, self.state, self.left, self.lines, self.found = key, state, list(next_steps.items()), lines, set()


class Orders:
    """What comes after each state that was met."""

    def __init__(self, program, limits, tells_at_once):
        self.program, self.limits, self.tells_at_once = program, limits, tells_at_once
        self.counts, self.after, self.branches, self.whole = Counts(program), {}, [], None

    def outputs(self):
        try:
            self.enter(State(self.program), ())
            while self.branches:
                self.go_on(self.branches[-1])
        except TooMany as limit:
            raise TooMany(limit.why, self.found_so_far()) from limit
        return self.whole

    def go_on(self, branch):
        """Makes the next of the steps that are left at a branch, or closes it."""
        if not branch.left:
            self.branches.pop()
            self.after[branch.key] = frozenset(branch.found)
            self.give(branch.lines, branch.found)
            return
        name, noticed = branch.left.pop(0)
        state = branch.state.copy() if branch.left else branch.state
        self.enter(state, made(state, name, noticed))

    def enter(self, state, lines):
        """Goes on from a state to its next branch, or to its end. `lines` were printed since the branch before."""
        threads, lines = self.to_branch(state, lines)
        if not threads.next:
            return self.give(lines, {(end_line(state),)})
        return self.meet(state, threads, lines)

    def to_branch(self, state, lines, trace=NO_TRACE):
        """Makes the steps of a state up to its next branch, or to its end: what its threads do next there, and all lines."""
        for _ in range(MOST_STEPS):
            self.limits.check_time()
            threads = Threads(state, self.limits, self.tells_at_once, trace)
            name = next((name for name in threads.next if threads.is_alone(name, self.counts)), None)
            if name is None:
                return threads, lines
            lines += made(state, name, threads.next[name], trace)
        raise TooMany(f"a run that makes {MOST_STEPS:,} steps in one order")

    def meet(self, state, threads, lines):
        """Opens a branch, or takes the outputs of one that was met before."""
        met = key(state)
        if met in self.after:
            if self.after[met] is None:
                raise TooMany("a run without an end")
            return self.give(lines, self.after[met])
        if len(self.after) >= self.limits.states:
            raise TooMany(f"more than {self.limits.states:,} states")
        self.after[met] = None
        state.drop_unreached()
        self.branches.append(Branch(met, state, threads.next, lines))
        return None

    def give(self, lines, found):
        """Hands outputs to the branch above, with the lines since then before each."""
        with_lines = {lines + others for others in found}
        if not self.branches:
            self.whole = frozenset(with_lines)
            return
        above = self.branches[-1].found
        above |= with_lines
        if len(above) > self.limits.outputs:
            raise TooMany(f"more than {self.limits.outputs:,} outputs")

    def found_so_far(self):
        """The whole outputs that are known where nothing more is gone through; all branches are closed."""
        found = set()
        for branch in reversed(self.branches):
            self.after[branch.key] = frozenset(found | branch.found)
            found = {branch.lines + others for others in self.after[branch.key]}
        return frozenset(found)

    def run_of(self, output):
        """The trace of a run with this output, which was found: from each branch on a step behind which the rest of it was found."""
        met, left = set(), []
        ended = self.walk(State(self.program), output, Trace(), met, left)
        while ended is None:
            state, name, noticed, rest, trace = left.pop()
            state, trace = state.copy(), trace.copy()
            lines = made(state, name, noticed, trace)
            if rest[: len(lines)] == lines:
                ended = self.walk(state, rest[len(lines) :], trace, met, left)
        return ended

    def walk(self, state, rest, trace, met, left):
        """Goes on from a state to its next branch, whose steps come to `left` where the rest of an output was found behind it. The trace, if
        that is its end."""
        threads, lines = self.to_branch(state, (), trace)
        behind = rest[len(lines) :]
        if rest[: len(lines)] != lines:
            return None
        if not threads.next:
            trace.wait(state)
            return trace if behind == (end_line(state),) else None
        found = key(state)
        if behind in (self.after.get(found) or ()) and (found, behind) not in met:
            met.add((found, behind))
            state.drop_unreached()
            left.extend((state, name, noticed, behind, trace) for name, noticed in reversed(threads.next.items()))
        return None


def as_text(lines):
    """An output as it is printed, from its lines."""
    return "".join(line + "\n" for line in lines)


def as_texts(found):
    return set(map(as_text, found))


def orders_of(text, limits):
    """The search through all orders of a text, which is done, its outputs, and why it was given up, or None."""
    program, places = read_with_places(text)
    for tells_at_once in (True, False):
        orders = Orders(program, limits, tells_at_once)
        orders.places = places
        try:
            return orders, orders.outputs(), None
        except TooMany as limit:
            return orders, limit.found, limit.why
        except TellFailed:
            pass
    raise AssertionError("a tell that is a choice fails in its thread alone")


def outputs(text, limits=None):
    """All outputs of a text. Raises TooMany where there are more of them, or more states, or a run may have no end."""
    _, found, why = orders_of(text, limits or Limits())
    if why is not None:
        raise TooMany(why, as_texts(found))
    return as_texts(found)


class Listed:
    """The outputs of a text in the order of their list, why there may be more, or None, and what the search knows of them."""

    def __init__(self, text, limits=None):
        self.text = text
        self.orders, found, self.why = orders_of(text, limits or Limits())
        self.orders.limits = Limits()
        self.outputs = dict(sorted((as_text(output), output) for output in found))

    def run_of(self, output):
        """A saved run of an output."""
        return saved_run(self.text, self.orders.run_of(self.outputs[output]), self.outputs[output][-1])


def outputs_with_runs(text, limits=None):
    """The outputs of a text, each with a saved run that prints it, and why there may be more of them, or None."""
    listed = Listed(text, limits)
    return {output: listed.run_of(output) for output in listed.outputs}, listed.why
