"""Statements of the kernel language, each with the variables that are free in it."""
from typing import NamedTuple


class Statement(NamedTuple):
    """A statement: its kind, what it has besides, and the variables that are free in it."""

    kind: str
    parts: tuple
    free: frozenset


# What is told is a value: ("variable", name), ("integer", 5), ("atom", "a"), ("record", label, fields), ("procedure", formals, body),
# ("operation", sign, name, other), or ("selection", name, by), where `by` is a variable, an atom or an integer.


def in_order(fields):
    """Fields in the order of features: integers before atoms, these by their bytes."""
    return tuple(sorted(fields, key=lambda field: (1, field[0].encode()) if isinstance(field[0], str) else (0, field[0])))


def free_in(value):
    """The variables that are free in a value."""
    kind, *parts = value
    if kind == "variable":
        return {parts[0]}
    if kind == "record":
        return {name for _, name in parts[1]}
    if kind == "procedure":
        return parts[1].free - set(parts[0])
    if kind == "operation":
        return {parts[1], parts[2]}
    if kind == "selection":
        return {parts[0]} | ({parts[1][1]} if parts[1][0] == "variable" else set())
    return set()


def sequence(*statements):
    """A sequence of one statement is that statement."""
    if len(statements) == 1:
        return statements[0]
    return Statement("sequence", statements, frozenset().union(*(statement.free for statement in statements)))


def local(names, body):
    return Statement("local", (names, body), body.free - set(names))


def tell(left, value):
    return Statement("tell", (left, value), frozenset({left} | free_in(value)))


def choice(subject, first, second):
    return Statement("if", (subject, first, second), first.free | second.free | {subject})


def match(subject, pattern, first, second):
    names = {name for _, name in pattern[2]} if pattern[0] == "record" else set()
    return Statement("case", (subject, pattern, first, second), (first.free - names) | second.free | {subject})


def call(callee, names):
    return Statement("call", (callee, names), frozenset(names) | {callee})


def built_in(name, names):
    return Statement(name, names, frozenset(names))


def thread(body, place=None):
    """A thread, and at which place it is to run, counted round the sites, where one is given."""
    return Statement("thread", (body, place), body.free)


def caught(body, name, handler):
    return Statement("try", (body, name, handler), body.free | (handler.free - {name}))


def raising(name):
    return Statement("raise", (name,), frozenset({name}))
