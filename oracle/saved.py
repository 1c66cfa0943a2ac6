"""Saved runs of one site, as docs/saved-runs.md has their text, from the steps of the plain machine.

On one site each step of a thread is a unit, and so is a try of a thread that has to wait; the site is idle where every thread has tried. So a run
that the plain machine made up to its rest is a run of one site: a unit for each step, in their order, and at last one for each thread
that waits. Threads have numbers there, in the order of their births."""

UNITS = 64
MOST_OWN_STEPS = 1_000_000_000


class NoTrace:
    def add(self, state, name, item, line=None):
        pass


NO_TRACE = NoTrace()


class Trace:
    """The units of a run, each the number of its thread and the line that it printed, or None."""

    def __init__(self, births=None, numbers=None, units=None):
        self.births, self.numbers, self.units = births or {(): 0}, numbers or {(): 0}, units or []

    def copy(self):
        return Trace(dict(self.births), dict(self.numbers), list(self.units))

    def add(self, state, name, item, line=None):
        """The thread of this name has made the step of an item."""
        self.units.append((self.numbers[name], line))
        born = state.births[name]
        if born > self.births[name]:
            self.births[name] = born
            self.births[name + (born,)] = 0
            self.numbers[name + (born,)] = len(self.numbers)

    def wait(self, state):
        """The threads that are left try, and wait."""
        self.units.extend((self.numbers[name], None) for name in state.threads)


def saved_run(text, trace, end):
    """The saved run of a trace."""
    length = len(text.encode())
    said = [f"ozrun 1 1 {MOST_OWN_STEPS} 0 {length}", text]
    for at in range(0, len(trace.units), UNITS):
        turn = trace.units[at : at + UNITS]
        said.append("turn 1 -" + "".join(f" 1.{number}" for number, _ in turn))
        said.extend(f"line {line}" for _, line in turn if line is not None)
    return "\n".join([*said, f"end {end}", ""])
