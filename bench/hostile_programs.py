"""Programs that grow with a number, and programs that grow for ever, for bench/hostile."""


def counted(name, formals, last, body):
    """A procedure that counts down from its first formal K to 0. At 0 it does `last`, and before that `body`, in which J is K - 1."""
    return f"""proc {{{name} K {formals}}}
  local B in
    B = K =< Zero
    if B then {last} else local J in J = K - One {body} end end
  end
end
"""


def program(names, *parts):
    return f"local Zero One {names} in Zero = 0 One = 1\n" + "\n".join(parts) + "\nend\n"


def loop(number, body, before="skip", after="skip", names=""):
    """Does the body so many times."""
    return program(f"N Loop {names}", f"N = {number}", before, counted("Loop", "", "skip", f"{body} {{Loop J}}"), "{Loop N}", after)


# makes a list of K elements
MAKE = counted("Make", "R", "R = nil", "local T in R = K|T {Make J T} end")

# makes a ring of K records, behind which stands S
RING = counted("Ring", "R S", "R = S", "local T in R = a(T) {Ring J T S} end")

# binds K variables in a chain; E is its end
CHAIN = counted("Chain", "X E", "E = X", "local Y in {Chain J Y E} Y = X end")

WALK = "proc {Walk L} case L of H|T then {Walk T} else {Browse Zero} end end"


def with_list(number, *parts, names=""):
    return program(f"N Make L {names}", f"N = {number}", MAKE, "{Make N L}", *parts)


def two_lists(number):
    return with_list(number, "{Make N M} L = M {Browse L}", names="M")


def two_rings(number, other):
    return program("N M Ring L K", f"N = {number} M = {other}", RING, "{Ring N L L} {Ring M K K} L = K {Browse Zero}")


def chain_looked_up(number):
    again = counted("Look", "E", "skip", "try E = f(K) catch F then skip end {Look J E}")
    return program("N Chain Look X E", f"N = {number}", CHAIN, again, "{Chain N X E} E = One {Look N E}")


def chain_sent(number):
    again = counted("Send", "E", "skip", "thread at 2 {Wait E} end {Send J E}")
    return program("N Chain Send X E", f"N = {number}", CHAIN, again, "{Chain N X E} {Send N E} E = One")


def known_everywhere(number):
    waits = " ".join(f"thread at {site} {{Wait X}} end" for site in range(1, 65))
    return loop(number // 64, f"local X in {waits} X = K end")


def told_equal(number, waits="{Wait X}"):
    """So many threads wait for a variable that is told equal to as many others, one after the other; between, all could try again."""
    start = counted("Start", "X", "skip", f"thread {waits} end {{Start J X}}")
    tell = counted("Tell", "X", "{Start N X}", "local Y D in {Tell J Y} Y = X thread D = One end {Wait D} end")
    return program("N Start Tell X", f"N = {number}", start, tell, "{Tell N X} X = One")


def list_shown_while_it_grows(number):
    start = counted("Start", "", "skip", "thread {Browse L} end {Start J}")
    grow = counted("Grow", "X", "X = nil", "local T in X = One|T {Wait J} {Grow J T} end")
    return program("N M Start Grow L", f"N = {number} M = 1000", start, grow, "{Start N} {Grow M L}")


def wide_scope(body):
    """99 declarations of 64 variables each, around the body, which uses all."""
    names = [" ".join(f"V{number}" for number in range(at, at + 64)) for at in range(0, 6336, 64)]
    uses = " ".join(f"V{number} = V{number}" for number in range(6336))
    return "\n".join(f"local {line} in" for line in names) + "\n" + body(uses) + " end" * 99


def wide_body(number):
    called = lambda uses: counted("Loop", "", uses, "{Loop J}") + "{Loop N}"
    return program("N Loop", f"N = {number}", wide_scope(called))


def wide_messages(number):
    wide = counted("Make", "R", "R = nil", "local T in R = f(" + "T " * 64 + ") {Make J T} end")
    send = counted("Send", "L", "skip", "thread at 2 {Wait L} end {Send J L}")
    return program("N M Make Send L", f"N = {number} M = 300", wide, send, "{Make M L} {Send N L}")


def waits_for_one_another(number, placed):
    begin = counted("Begin", "X", "X = One", f"local Y in thread {placed} {{Wait Y}} X = Y end {{Begin J Y}} end")
    return program("N Begin X", f"N = {number}", begin, "{Begin N X} {Wait X} {Browse X}")


def cell_of_two(number):
    change = counted("Change", "", "skip", "local O in {Exchange C O K} {Change J} end")
    return program("N C Change", f"N = {number}", "{NewCell Zero C}", change, "thread at 2 {Change N} end thread at 3 {Change N} end")


def stack_of_calls(number):
    return program("N Call", f"N = {number}", counted("Call", "", "skip", "{Call J} skip"), "{Call N}")


def stack_of_catches(number):
    call = counted("Call", "", "raise K end", "try {Call J} catch E then raise E end end")
    return program("N Call", f"N = {number}", call, "{Call N}")


def spread_list(number):
    return program("N Make Walk L", f"N = {number}", MAKE, WALK, "thread at 2 {Make N L} end thread at 3 {Walk L} end")


def shared_fields(number):
    wide = counted("Make", "R", "R = nil", "local T in R = f(" + "T " * 64 + ") {Make J T} end")
    return program("N Make L M", f"N = {number // 64}", wide, "{Make N L} {Make N M} L = M {Browse Zero}")


def threads_between_sites(number):
    hop = counted("Hop", "", "skip", "thread at 2 local I in I = J thread at 1 {Hop I} end end end")
    return program("N Hop", f"N = {number}", hop, "{Hop N}")


def lists_compared_while_they_grow(number):
    """So many threads compare two lists, which grow by turns to as many elements: each is woken by each element."""
    start = counted("Start", "", "skip", "thread local B in B = L == M end end {Start J}")
    grow = counted("Grow", "X Y", "X = nil Y = nil", "local S T D in X = One|S Y = One|T thread D = One end {Wait D} {Grow J S T} end")
    return program("N Start Grow L M", f"N = {number}", start, grow, "{Start N} {Grow N L M}")


# each with its first size, and by what its time and its memory may grow where the size doubles. Twice is what the work is; where so
# many threads compare what is told or grows as often, each trying again, the work is four times as much
TWICE, FOUR_TIMES = 2.7, 6.5

PROGRAMS = {
    "a loop": (lambda n: loop(n, "skip"), 50000, TWICE),
    "a list": (lambda n: with_list(n, "{Browse L}"), 25000, TWICE),
    "two lists told equal": (two_lists, 25000, TWICE),
    "two rings told equal": (lambda n: two_rings(n // 100, 99), 25000, TWICE),
    "a chain of variables, looked up": (chain_looked_up, 25000, TWICE),
    "a chain of variables, sent": (chain_sent, 10000, TWICE),
    "a variable known at 64 sites": (known_everywhere, 25000, TWICE),
    "threads that wait for what is told equal": (told_equal, 2000, TWICE),
    "threads at a test of what is told equal": (lambda n: told_equal(n, "local B in B = X == Zero end"), 250, FOUR_TIMES),
    "threads that compare lists that grow": (lists_compared_while_they_grow, 250, FOUR_TIMES),
    "threads that show a list that grows": (list_shown_while_it_grows, 100, TWICE),
    "a body of 6336 variables": (wide_body, 2500, TWICE),
    "messages of 256 wide records": (wide_messages, 100, TWICE),
    "threads that end": (lambda n: loop(n, "thread skip end"), 25000, TWICE),
    "threads that end elsewhere": (lambda n: loop(n, "thread at 2 skip end"), 25000, TWICE),
    "threads that wait": (lambda n: loop(n, "thread {Wait X} end", names="X"), 25000, TWICE),
    "threads that are woken": (lambda n: loop(n, "thread {Wait X} end", after="X = One", names="X"), 25000, TWICE),
    "threads that are woken elsewhere": (lambda n: loop(n, "thread at 2 {Wait X} end", after="X = One", names="X"), 25000, TWICE),
    "threads that race for a variable": (lambda n: loop(n, "thread at 2 try X = K catch E then skip end end", names="X"), 25000, TWICE),
    "threads that each bind one elsewhere": (lambda n: loop(n, "local X in thread at 2 X = K end {Wait X} end"), 10000, TWICE),
    "threads that wait for one another": (lambda n: waits_for_one_another(n, ""), 25000, TWICE),
    "the same over two sites": (lambda n: waits_for_one_another(n, "at 2"), 10000, TWICE),
    "cells": (lambda n: loop(n, "local C in {NewCell K C} end"), 25000, TWICE),
    "a cell between two sites": (cell_of_two, 10000, TWICE),
    "threads that ask for one cell": (
        lambda n: loop(n, "thread at 2 local O in {Exchange C O K} end end", "{NewCell Zero C}", names="C"), 10000, TWICE),
    "a stack of calls": (stack_of_calls, 25000, TWICE),
    "a stack of catches": (stack_of_catches, 25000, TWICE),
    "uncaught exceptions": (lambda n: loop(n, "thread raise K end end"), 25000, TWICE),
    "lines": (lambda n: loop(n, "{Browse K}"), 25000, TWICE),
    "lines elsewhere": (lambda n: loop(n, "thread at 2 {Browse K} end"), 25000, TWICE),
    "a list read while it is made, elsewhere": (spread_list, 10000, TWICE),
    "procedures": (lambda n: loop(n, "local P in proc {P X} X = K end {P K} end"), 25000, TWICE),
    "records with 64 fields that are one": (shared_fields, 25000, TWICE),
    "threads that go from site to site": (threads_between_sites, 10000, TWICE),
}


def forever(body, names="", before=""):
    return program(f"Loop {names}", "{Browse One}", before, f"proc {{Loop}} {body} {{Loop}} end", "{Loop}")


def exchanged_forever():
    change = "proc {Change} local O in {Exchange C O One} {Change} end end"
    threads = " ".join(f"thread at {site} {{Change}} end" for site in (2, 3, 4))
    return program("C Change", "{Browse One} {NewCell One C}", change, threads)


# each prints the line 1, and then takes more memory for ever
ENDLESS = {
    "a list": program("Make", "{Browse One}", "proc {Make X} local Y in X = One|Y {Make Y} end end", "local X in {Make X} end"),
    "threads that wait": forever("thread {Wait X} end", "X"),
    "threads that end": forever("thread skip end"),
    "threads that wait elsewhere": forever("thread at 2 {Wait X} end", "X"),
    "threads that end elsewhere": forever("thread at 2 skip end"),
    "threads that start threads": program("P", "{Browse One}", "proc {P} thread {P} end thread at 2 {P} end end", "{P}"),
    "a stack of calls": program("P", "{Browse One}", "proc {P} {P} skip end", "{P}"),
    "a stack of catches": program("P", "{Browse One}", "proc {P} try {P} catch E then skip end end", "{P}"),
    "cells": forever("local C in {NewCell One C} end"),
    "lines": forever("{Browse One}"),
    "lines of a wide cycle": forever("{Browse X}", "X", "X = f(" + "X " * 64 + ")"),
    "wide records": forever("local X in X = f(" + "X " * 64 + ") end"),
    "variables alone": forever("local " + " ".join(f"A{number}" for number in range(64)) + " in skip end"),
    "a loop": forever("skip"),
    "two rings told equal": program("N M Ring L K", "N = 30000 M = 30001 {Browse One}", RING, "{Ring N L L} {Ring M K K} L = K"),
    "a cell between three sites": exchanged_forever(),
}

# of these the first turn, which prints the first line, takes megabytes
GREAT_TURNS = {"lines of a wide cycle"}
