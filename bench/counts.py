"""Counts what a run of a text makes: threads, variables, cells, exchanges and sends. It runs on the plain machine of oracle/, whose
threads take turns, each until it waits or ends."""
import pathlib
import sys
from typing import NamedTuple

sys.path.append(str(pathlib.Path(__file__).resolve().parent.parent / "oracle"))

from machine import State, Unbound, advance, take
from reading import read


class Counts(NamedTuple):
    """Of a run that is over: its threads, the first among them, its variables, its mobile cells, and the exchanges of them all; likewise its
    stationary cells; and the sends to its ports."""

    threads: int
    variables: int
    cells: int
    exchanges: int
    placed: int
    exchanges_at_homes: int
    sends: int


def most_messages(counts, sites):
    """The most messages of a run on so many sites."""
    threads, variables, cells, exchanges, placed, exchanges_at_homes, sends = counts
    answered = 2 * sends + placed + 2 * exchanges_at_homes + threads
    return threads + 2 * variables * (sites - 1) + threads * variables + answered + 3 * (exchanges + cells * sites)


def placed_cells(state):
    """The stationary cells: those with a place behind their number."""
    return [holder for holder in state.held if holder[0] == "cell" and len(holder) == 3]


def run_thread(state, name):
    """Runs a thread until it waits or ends: how many steps it made, and which of them were exchanges, of mobile cells or of stationary ones, or
    sends."""
    made, deeds = 0, []
    while state.threads[name]:
        try:
            noticed = advance(state, name)
        except Unbound:
            return made, deeds
        made += 1
        if noticed:
            take(state, name, noticed)
            deeds.append("placed" if noticed[0] == "exchange" and len(noticed[1]) == 3 else noticed[0])
    del state.threads[name]
    return made + 1, deeds


def counts(text):
    state = State(read(text))
    deeds, moved = [], True
    while moved:
        moved = False
        for name in list(state.threads):
            steps, more = run_thread(state, name)
            moved |= steps > 0
            deeds += more
    placed = len(placed_cells(state))
    mobile = sum(holder[0] == "cell" for holder in state.held) - placed
    exchanges, at_homes, sends = (deeds.count(deed) for deed in ("exchange", "placed", "send"))
    return Counts(len(state.births), state.variables, mobile, exchanges, placed, at_homes, sends)
