"""What the threads of a text do in one order: who waits at its end, and for what, and which calls one without an end makes again and again. It is
made by the plain machine, with places in the text."""
import collections
import time
from typing import NamedTuple

from machine import State, Unbound, advance, take
from orders import Limits, Orders, TooMany, made
from reading import Unreadable, read_with_places
from why import Last, place, said_line


class Waiting(NamedTuple):
    """A thread that waits: its statement as it begins, the place of it, that of its thread, or None of the first, the names of what it waits for, and
    whether that is the end of a port's stream."""

    statement: str
    place: str
    thread: str
    names: tuple
    is_at_rest: bool


def rest(text, seconds):
    """The threads that wait where nothing goes on, or None where the plain machine does not come so far."""
    try:
        program, places = read_with_places(text)
        orders, state, last = Orders(program, Limits(seconds=seconds), tells_at_once=False), State(program), Last()
        threads, _ = orders.to_branch(state, (), last)
        while threads.next:
            name, noticed = next(iter(threads.next.items()))
            made(state, name, noticed, last)
            threads, _ = orders.to_branch(state, (), last)
    except (TooMany, Unreadable, RecursionError):
        return None
    ends = {state.root(variable) for holder, variable in state.held.items() if holder[0] == "port"}
    return [waiting(text, places, state, last, name, roots, ends) for name, roots in sorted(threads.awaited.items())]


def waiting(text, places, state, last, name, roots, ends):
    statement, start, _ = last.statement(state, name)
    item = state.threads[name][0]
    names = item[2] if item[0] == "run" else {}
    known = sorted({used.split("'")[0] for used, variable in names.items() if used[0] != "'" and state.root(variable) in roots})
    at, _ = places[id(statement)]
    where = start and place(text, places[id(start)][0])
    return Waiting(said_line(text, places, statement), place(text, at), where, tuple(known), set(roots) <= ends)


QUANTUM, MOST_STEPS = 64, 40_000


def busy(text, seconds):
    """The calls that threads make most often in the second half of so many steps, each as it begins, with its place. None where the text is none."""
    try:
        program, places = read_with_places(text)
    except (Unreadable, RecursionError):
        return None
    state, made_steps, until = State(program), [], time.monotonic() + seconds
    while len(made_steps) < MOST_STEPS and time.monotonic() < until:
        before = len(made_steps)
        for name in list(state.threads):
            made_steps += quantum(state, name)
        if len(made_steps) == before:
            break
    calls = collections.Counter(statement for statement in made_steps[len(made_steps) // 2 :] if statement is not None)
    alive = {id(statement): statement for statement in calls}
    found = sorted(alive.values(), key=lambda it: -calls[it])
    return [(said_line(text, places, it), place(text, places[id(it)][0])) for it in found if 3 * calls[it] >= calls[found[0]]]


def quantum(state, name):
    """The calls among the next steps of a thread, and None for each other step."""
    found = []
    try:
        while state.threads[name] and len(found) < QUANTUM:
            item = state.threads[name][0]
            noticed = advance(state, name)
            if noticed:
                take(state, name, noticed)
            found.append(item[1] if item[0] == "run" and item[1].kind == "call" else None)
    except Unbound:
        return found
    if not state.threads[name]:
        del state.threads[name]
    return found
