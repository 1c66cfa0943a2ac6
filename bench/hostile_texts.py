"""Texts of a given length that are hard to read, for bench/hostile: each shape makes one of at most so many bytes."""


def filled(unit, length, head=b"", tail=b""):
    """The unit as often as it fits, between a head and a tail."""
    return head + unit * max(0, (length - len(head) - len(tail)) // len(unit)) + tail


def numbered(unit, length, head=b"", tail=b""):
    """Units that differ by their number, as many as fit."""
    units, left = [], length - len(head) - len(tail)
    while left > 0:
        units.append(unit(len(units)))
        left -= len(units[-1])
    return head + b"".join(units[:-1]) + tail


def nested(opened, closed, depth, body=b"skip"):
    return opened * depth + body + closed * depth


def blocks(opened, closed, depth, names=b""):
    """Blocks of statements that are so deep, within a declaration where names are given."""
    head, tail = (b"local " + names + b" in ", b" end") if names else (b"", b"")
    return lambda length: filled(nested(opened, closed, depth) + b" ", length, head, tail)


def names(prefix, first, end):
    return b" ".join(b"%s%d" % (prefix, number) for number in range(first, end))


def scope(levels, body):
    """So many declarations of 64 variables each, around the body."""
    head = b"".join(b"local " + names(b"V", level * 64, level * 64 + 64) + b" in " for level in range(levels))
    return head + body + b" end" * levels


def scoped(unit):
    """The unit again and again, where 12,672 variables are declared."""
    return lambda length: scope(198, filled(unit, length - len(scope(198, b""))))


def wide(inner):
    """Statements that use 6,336 variables, each time within the bodies that `inner` makes."""
    def shape(length):
        uses = b" ".join(b"V%d = V%d" % (number, number) for number in range(6336))
        return scope(99, filled(inner(uses) + b" ", length - len(scope(99, b""))))
    return shape


def chain(step):
    """Tells 12,672 variables equal one after the other, and then the last and the first again and again."""
    def shape(length):
        order = range(12671) if step > 0 else range(12671, 0, -1)
        tells = b" ".join(b"V%d = V%d" % (number, number + step) for number in order) + b" "
        return scope(198, tells + filled(b"V12671 = V0 ", length - len(scope(198, tells))))
    return shape


FIELDS = b"X " * 64
HANDLED = b" catch E then skip end "

SHAPES = {
    "blanks": lambda n: filled(b" ", n),
    "newlines": lambda n: filled(b"\n", n),
    "question marks": lambda n: filled(b"?", n),
    "one comment of a line": lambda n: filled(b"x", n, b"%"),
    "comments that are opened": lambda n: filled(b"/*", n),
    "comments within comments": lambda n: b"/*" * (n // 4) + b"*/" * (n // 4),
    "small comments": lambda n: filled(b"/**/", n, b"skip "),
    "statements": lambda n: filled(b"skip ", n),
    "a statement a line": lambda n: filled(b"skip\n", n),
    "declarations without an end": lambda n: filled(b"local X in ", n),
    "declarations 199 deep": blocks(b"local X in ", b" end", 199),
    "threads 199 deep": blocks(b"thread ", b" end", 199),
    "placed threads 199 deep": blocks(b"thread at 3 ", b" end", 199),
    "catches 199 deep": blocks(b"try ", b" catch X then skip end", 199),
    "first branches 198 deep": blocks(b"if B then ", b" else skip end", 198, b"B"),
    "second branches 198 deep": blocks(b"if B then skip else ", b" end", 198, b"B"),
    "matches 198 deep": blocks(b"case X of H|T then ", b" else skip end", 198, b"X"),
    "procedures 198 deep": blocks(b"proc {P} ", b" end", 198, b"P"),
    "64 names at once": lambda n: numbered(lambda i: b"local " + names(b"N", i * 64, i * 64 + 64) + b" in skip end ", n),
    "names one by one": lambda n: numbered(lambda i: b"local N%d in skip end " % i, n),
    "atoms that differ": lambda n: numbered(lambda i: b"X = a%d " % i, n, b"local X in try ", HANDLED + b"end"),
    "long atoms that differ": lambda n: numbered(lambda i: b"X = 'a%0240d' " % i, n, b"local X in try ", HANDLED + b"end"),
    "a giant name": lambda n: filled(b"A", n, b"local "),
    "a giant atom": lambda n: filled(b"a", n, b"local X in X = "),
    "a giant atom in quotes": lambda n: filled(b"a", n, b"local X in X = '"),
    "the same with its end": lambda n: filled(b"a", n, b"local X in X = '", b"' end"),
    "quotes": lambda n: filled(b"'", n),
    "escapes": lambda n: filled(b"\\n", n, b"local X in X = '"),
    "a giant integer": lambda n: filled(b"9", n, b"local X in X = "),
    "a giant integer of zeros": lambda n: filled(b"0", n, b"local X in X = "),
    "a giant negative integer": lambda n: filled(b"1", n, b"local X in X = ~"),
    "integers": lambda n: filled(b"X = 9223372036854775807 ", n, b"local X in ", b" end"),
    "braces that are opened": lambda n: filled(b"{", n),
    "braces that are closed": lambda n: filled(b"}", n),
    "parentheses": lambda n: filled(b"(", n, b"local X in X = f"),
    "faults": lambda n: filled(b"local 1 = ~ @ ", n),
    "equal signs": lambda n: filled(b"=", n),
    "bytes 0": lambda n: filled(b"\0", n),
    "a byte 0 at the end": lambda n: filled(b"skip ", n, tail=b"\0"),
    "bytes that are no UTF-8": lambda n: filled(b"\xff", n),
    "characters of four bytes": lambda n: filled("😀".encode(), n),
    "the same in a comment": lambda n: filled("😀".encode(), n, b"%", b"\nskip"),
    "a character that is cut": lambda n: filled(b"a", n, b"%", b"\xf0\x9f\x98"),
    "a surrogate": lambda n: filled(b"a", n, b"%", b"\xed\xa0\x80"),
    "an overlong byte 0": lambda n: filled(b"a", n, b"%", b"\xc0\x80"),
    "too many fields": lambda n: filled(b"X ", n, b"local X in X = f("),
    "too many arguments": lambda n: filled(b"P ", n, b"local P in {P "),
    "too many formals": lambda n: numbered(lambda i: b"A%d " % i, n, b"local P in P = proc {$ "),
    "records of 64 fields": lambda n: filled(b"X = f(" + FIELDS + b") ", n, b"local X in ", b" end"),
    "records of 64 named fields, the last first": lambda n: filled(
        b"X = f(" + b" ".join(b"%d:X" % i for i in range(64, 0, -1)) + b") ", n, b"local X in ", b" end"),
    "records that fail": lambda n: numbered(lambda i: b"try X = f%d(" % i + FIELDS + b")" + HANDLED, n, b"local X in X = g ", b" end"),
    "patterns of 64": lambda n: filled(
        b"case X of f(" + names(b"A", 0, 64) + b") then skip else skip end ", n, b"local X in X = f(" + FIELDS + b") ", b" end"),
    "lines": lambda n: filled(b"{Browse X} ", n, b"local X in X = 5 ", b" end"),
    "lines of a wide cycle": lambda n: filled(b"{Browse X} ", n // 512, b"local X in X = f(" + FIELDS + b") ", b" end"),
    "operators": lambda n: filled(b"try X = Y + Z" + HANDLED, n, b"local X Y Z in Y = 1 Z = 2 ", b" end"),
    "exceptions": lambda n: filled(b"try raise X end" + HANDLED, n, b"local X in X = 1 ", b" end"),
    "threads": lambda n: filled(b"thread skip end ", n),
    "threads at 64 sites": lambda n: numbered(lambda i: b"thread at %d skip end " % (i % 64 + 1), n),
    "threads of 6336 variables": wide(lambda uses: b"thread " + uses + b" end"),
    "threads of 6336 variables elsewhere": wide(lambda uses: b"thread at 2 " + uses + b" end"),
    "the same 99 deep": wide(lambda uses: nested(b"thread ", b" end", 99, uses)),
    "procedures of 6336 variables 99 deep": wide(lambda uses: nested(b"proc {V0} ", b" end", 99, uses)),
    "declarations among 12672 names": scoped(b"local X in skip end "),
    "threads among 12672 names": scoped(b"thread skip end "),
    "catches among 12672 names": scoped(b"try skip" + HANDLED),
    "a chain of variables, upward": chain(1),
    "a chain of variables, downward": chain(-1),
    "an undeclared name at the end": lambda n: filled(b"skip ", n, tail=b"{Browse X}"),
    "a byte too many": lambda n: b" " * (n + 1),
}
