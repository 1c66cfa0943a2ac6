"""All outputs of a text by searches without the shortcuts of orders.py, to hold it to them.

`plain_outputs` makes each step of each thread a choice, whoever notices it: it is for small texts. `noticed_outputs` makes each step that
another thread may notice a choice, tells among them.
"""
from keys import key_by_names
from machine import State, Unbound, advance, take
from orders import MOST_OUTPUTS, MOST_STATES, Limits, Threads, TooMany, as_texts
from reading import read


def any_step(state, name):
    """The state after one step of a thread and what it printed, or None where it waits."""
    following = state.copy()
    if not following.threads[name]:
        del following.threads[name]
        following.ended += 1
        return following, ()
    try:
        noticed = advance(following, name)
    except Unbound:
        return None
    line = take(following, name, noticed) if noticed else None
    return following, () if line is None else (line,)


def any_steps(state):
    """What may come after a state, by one step of any thread."""
    return [after for after in (any_step(state, name) for name in list(state.threads)) if after]


def noticed_steps(state):
    """What may come after a state whose threads are run as far as no other can notice it, by one step that may be noticed."""
    found = []
    for name, noticed in Threads(state, Limits(), tells_at_once=False).next.items():
        following = state.copy()
        line = take(following, name, noticed)
        found.append((following, () if line is None else (line,)))
    return found


def forward(text, steps, limits):
    """All outputs of a text, by a search that goes forward: for each state the lines that may stand before it."""
    start = State(read(text))
    before, left, found = {key_by_names(start): {()}}, [(start, ())], set()
    while left:
        state, lines = left.pop()
        following = steps(state)
        if not following:
            found.add(lines + (f"quiescent ended={state.ended} waiting={len(state.threads)}",))
        for after, line in following:
            known = before.setdefault(key_by_names(after), set())
            if lines + line not in known:
                known.add(lines + line)
                left.append((after, lines + line))
        if len(before) > limits.states or len(found) > limits.outputs:
            raise TooMany("too many", as_texts(found))
    return as_texts(found)


def plain_outputs(text, most_states=MOST_STATES, most_outputs=MOST_OUTPUTS):
    return forward(text, any_steps, Limits(most_states, most_outputs))


def noticed_outputs(text, most_states=MOST_STATES, most_outputs=MOST_OUTPUTS):
    return forward(text, noticed_steps, Limits(most_states, most_outputs))
