"""What each kind of statement costs by itself: a loop with the statement in it less the loop without it, in instructions a step."""
from exact import marked, there_is_valgrind
from instructions import instructions
from runs import QUIET, at, central, placed, steps_law

# instructions a step, at most, and how many more each field, variable or argument above four may take. A kind that has a number of its own below is
# held to that until it stays in the stretch as well: then a birth and a caught failure are to take 1,000 at most, a Browse 2,500, and the others MOST
MOST, MOST_MORE = 500, 40
FREE = 4

# the variables of the loop's body
LETTERS = "A B D E F G H I"

# what is declared around the loop
AROUND = f"""Loop One Zero Two N Nil True Atom Pair Record Feature Eight Proc Cell Port Ends in
  One = 1 Zero = 0 Two = 2 Nil = nil True = true Atom = a Pair = One|Nil Record = r(b:One c:Two) Feature = b
  Eight = f(One One One One One One One One)
  proc {{Proc X}} skip end
  {{NewCell One Cell}} {{NewPort Ends Port}}"""

NEVER = "local Never in thread {Wait Never} end end"

# each kind: its name, the statement, what stands in its place in the loop that it is measured beside, how many fields, variables or arguments it
# has, and the most instructions that a step of it may take beside these
KINDS = [
    ("skip", "skip", "", 0, MOST),
    ("local, 1 variable", "local Z in skip end", "", 1, MOST),
    ("local, 8 variables", f"local {LETTERS} in skip end", "", 8, MOST),
    ("local, 9 variables", f"local {LETTERS} J in skip end", "", 9, 900),
    ("X = 5", "X = 5", "", 0, MOST),
    ("X = a", "X = a", "", 0, MOST),
    ("X = f(A)", "X = f(One)", "", 1, MOST),
    ("X = A|B", "X = One|Nil", "", 2, 520),
    ("X = f(A .. H)", "X = f(One One One One One One One One)", "", 8, MOST),
    ("X = Y, both free", "X = Y", "", 0, 620),
    ("X = K + One", "X = K + One", "", 0, MOST),
    ("X = K =< One", "X = K =< One", "", 0, MOST),
    ("X = R.b", "X = Record.b", "", 0, MOST),
    ("X = R.Feature", "X = Record.Feature", "", 0, 580),
    ("X = K == One", "X = K == One", "", 0, MOST),
    ("if", "if True then skip else skip end", "", 0, MOST),
    ("case, a pair", "case Pair of Z|Zs then skip else skip end", "", 2, MOST),
    ("call, 1 argument", "{Proc One}", "", 1, MOST),
    ("Wait, bound", "{Wait One}", "", 0, MOST),
    ("Exchange", "{Exchange Cell X One}", "", 0, 830),
    ("NewCell", "{NewCell One X}", "", 0, 910),
    ("NewPort", "{NewPort X Y}", "", 0, 900),
    ("Send", "{Send Port One}", "", 0, 660),
    ("proc", "proc {X Z} skip end", "", 0, 740),
    ("thread", "thread skip end", "", 0, 1500),
    ("thread that is waited for", "thread X = 1 end {Wait X}", "", 0, 1150),
    ("try", "try skip catch Z then skip end", "", 0, MOST),
    ("try, raise", "try raise One end catch Z then skip end", "", 0, 600),
    ("try, a tell that fails", "try One = Two catch Z then skip end", "", 0, 1790),
    ("pairs of a goal block", f"local {LETTERS} in X = f({LETTERS}) X = Eight end", f"local {LETTERS} in X = f({LETTERS}) end", 0, 660),
    ("Browse of an integer", "{Browse One}", "", 0, 3400),
]

TURNS = (400, 800)


def loop(statement, waiting):
    """The loop of n turns with this statement, which two others follow, and another thread that waits or none."""
    def text(n):
        return f"""local {AROUND} N = {n} {NEVER if waiting else ""}
  proc {{Loop K}}
    local Ends in
      Ends = K =< Zero
      if Ends then skip else local M in M = K - One local X Y in {statement} skip skip end {{Loop M}} end end
    end
  end
  {{Loop N}}
end"""
    text.__name__ = statement
    return text


def a_turn(program, statement, sites, waiting=False):
    """The steps of a turn of the loop, and the instructions that they take, by `central` or on so many sites. Its text is as long for each number of
    turns, so that reading it does not count."""
    shape = loop(statement, waiting)
    law = steps_law(program, shape, 1, (8, 16, 32))
    less, more = (instructions(program, placed(sites) if sites else central(int(at(law, n))), shape(n), QUIET) for n in TURNS)
    return at(law, 1) - at(law, 0), (more - less) / (TURNS[1] - TURNS[0])


def show_kinds(program):
    """Prints for each kind its steps, and the instructions a step by `central`, there beside a thread that waits, and on one site."""
    if not there_is_valgrind():
        return True
    ways = ((0, False), (0, True), (1, False))
    bare, all_right = {}, True
    for name, statement, beside, parts, most in KINDS:
        each = []
        for way in ways:
            if (beside, way) not in bare:
                bare[beside, way] = a_turn(program, beside, *way)
            (steps, taken), (steps_beside, taken_beside) = a_turn(program, statement, *way), bare[beside, way]
            steps -= steps_beside
            each.append((taken - taken_beside) / steps)
        bound = most + MOST_MORE * max(parts - FREE, 0)
        right = each[0] <= bound
        all_right &= right
        said = f"{each[0]:.0f} instructions a step, {each[1]:.0f} beside a thread that waits, {each[2]:.0f} on one site"
        print(f"{name:26} {steps} steps, {said}{marked(right, f'more than {bound}')}", flush=True)
    return all_right
