"""Texts of a given length with sugar that is hard to read or to expand, for bench/hostile: each shape makes one of at most so many bytes."""
from hostile_texts import HANDLED, filled, names, nested, numbered, scope

HEAD, END = b"local X Y P in ", b" end"


def told(value):
    """Tells of a value again and again, each of which fails."""
    return lambda length: filled(b"try X = " + value + HANDLED, length, HEAD + b"X = 0 ", END)


def within(opened, closed, depth, body=b"1"):
    """Tells of values within values so deep, in a branch that is not taken."""
    return lambda length: filled(b"X = " + nested(opened, closed, depth, body) + b" ", length, HEAD + b"if true then skip else skip ", END + END)


def open_value(unit):
    """A value that is opened again and again, and not closed."""
    return lambda length: filled(unit, length, HEAD + b"X = ")


def clauses(unit, length, head, tail):
    return filled(b"[] b then " + unit + b" ", length, HEAD + head + b"case X of a then " + unit + b" ", tail + END)


SUGAR = {
    "sugar: functions 196 deep": within(b"fun {$} ", b" end", 196),
    "sugar: procedures 196 deep": within(b"proc {$} X = ", b" end", 196),
    "sugar: functions of 63 formals": lambda n: filled(b"fun {P " + names(b"A", 0, 63) + b"} A0 end ", n, HEAD + b"try ", HANDLED + END),
    "sugar: brackets 196 deep": within(b"(", b")", 196),
    "sugar: calls 196 deep": within(b"{P ", b"}", 196),
    "sugar: calls of two 98 deep": within(b"{P 1 ", b"}", 98),
    "sugar: calls of 63 values": told(b"{P" + b" 1" * 63 + b"}"),
    "sugar: records 196 deep": within(b"f(", b")", 196),
    "sugar: records of 64 values": told(b"f(" + b"1 " * 64 + b")"),
    "sugar: lists of 98 integers": told(b"1|" * 98 + b"nil"),
    "sugar: lists of 196 variables": told(b"Y|" * 196 + b"Y"),
    "sugar: operators on the left 98 deep": within(b"(", b" + 1)", 98),
    "sugar: operators on the right 97 deep": within(b"(1 + ", b")", 97),
    "sugar: tests of values": told(b"f(1 2) == f(1 3)"),
    "sugar: selections 196 long": told(b"Y" + b".a" * 196),
    "sugar: conditions 196 deep": within(b"if ", b" then 1 else 1 end", 196, b"Y"),
    "sugar: first branches 196 deep": within(b"if Y then ", b" else 1 end", 196),
    "sugar: second branches 196 deep": within(b"if Y then 1 else ", b" end", 196),
    "sugar: matches 196 deep": within(b"case X of H|T then ", b" else 1 end", 196),
    "sugar: 196 clauses": told(b"case X of a then 1 " + b"[] b then 1 " * 195 + b"else 1 end"),
    "sugar: last parts 98 deep": lambda n: filled(nested(b"try ", b" finally skip end", 98, b"skip") + b" ", n, HEAD, END),
    "sugar: last parts within last parts 98 deep": lambda n: filled(nested(b"try skip finally ", b" end", 98, b"skip") + b" ", n, HEAD, END),
    "sugar: raised values": lambda n: filled(b"try raise f(1 2) end" + HANDLED, n, HEAD, END),
    "sugar: values among 12,544 names": lambda n: scope(196, filled(b"V0 = f(V1 2) ", n - len(scope(196, b"")))),
    "sugar: functions among 12,544 names": lambda n: scope(196, filled(b"V0 = fun {$ X} X + V1 end ", n - len(scope(196, b"")))),
    "sugar: brackets that are opened": open_value(b"("),
    "sugar: calls that are opened": open_value(b"{P "),
    "sugar: records that are opened": open_value(b"f("),
    "sugar: functions that are opened": open_value(b"fun {$} "),
    "sugar: conditions that are opened": open_value(b"if "),
    "sugar: matches that are opened": open_value(b"case "),
    "sugar: clauses without an end": lambda n: clauses(b"1", n, b"X = ", b"else 1 end"),
    "sugar: clauses of statements without an end": lambda n: clauses(b"skip", n, b"", b"else skip end"),
    "sugar: clauses of nested values": lambda n: clauses(nested(b"f(", b")", 90, b"1"), n, b"X = ", b"else 1 end"),
    "sugar: a list without an end": open_value(b"1|"),
    "sugar: a list of variables without an end": open_value(b"Y|"),
    "sugar: selections without an end": lambda n: filled(b".a", n, HEAD + b"X = Y"),
    "sugar: operators without an end": lambda n: filled(b" + 1", n, HEAD + b"X = 1"),
    "sugar: too deep an expansion at the front": lambda n: filled(b"skip ", n, HEAD + b"X = " + b"1|" * 150 + b"nil ", END),
    "sugar: one at the end": lambda n: filled(b"Y = f(1) ", n, HEAD, b"X = " + b"1|" * 150 + b"nil" + END),
    "sugar: a fault behind it": lambda n: filled(b"skip ", n, HEAD + b"X = " + b"1|" * 150 + b"nil ", b"{Browse Z}" + END),
    "sugar: lines of values": lambda n: filled(b"{Browse 5} ", n, HEAD, END),
    "sugar: values that differ": lambda n: numbered(lambda i: b"try X = f(a%d %d)" % (i, i) + HANDLED, n, HEAD + b"X = 0 ", END),
}
