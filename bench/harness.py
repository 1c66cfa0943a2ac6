"""A program that is run with some of its allocations, reads, writes or threads refused, by the library of bench/refuse.c; and the
texts that it is run on, with all that each may print."""
import os
import pathlib
import subprocess
import tempfile

here = pathlib.Path(__file__).resolve().parent
top = here.parent

MOST_SECONDS = 60


def built_program():
    """The program that ./oz runs, built where it is not."""
    return subprocess.run([str(top / "oz"), "program"], check=True, stdout=subprocess.PIPE, text=True).stdout.strip()


class Outcome:
    """How a run ended: its status, or None where it had no end after a minute; what it printed; and what was counted of it."""

    def __init__(self, status, printed, complaints, counts):
        self.status, self.printed, self.complaints, self.counts = status, printed, complaints, counts

    def __str__(self):
        ended = "no end" if self.status is None else f"status {self.status}"
        return f"{ended}, printed {self.printed[-200:]!r}" + (f", complains {self.complaints[:200]!r}" if self.complaints else "")


class Harness:
    """Runs a program with faults: the variables that bench/refuse.c tells of."""

    def __init__(self, program):
        self.program = program
        self.folder = tempfile.TemporaryDirectory(prefix="refuse-")
        self.library = os.path.join(self.folder.name, "refuse.so")
        made = subprocess.run(["cc", "-O2", "-shared", "-fPIC", "-o", self.library, str(here / "refuse.c"), "-ldl", "-lpthread"])
        if made.returncode != 0:
            raise SystemExit("the library that refuses calls could not be built")
        if not self.run([], FIVE).counts.get("allocations"):
            raise SystemExit(f"{program}: no allocation of it can be refused, since it takes none by malloc")

    def run(self, words, text=b"", **faults):
        file, counted = tempfile.mkstemp(dir=self.folder.name)
        os.close(file)
        given = {"LD_PRELOAD": self.library, "COUNTS": counted, **{name: str(value) for name, value in faults.items()}}
        going = subprocess.Popen([self.program, *words], stdin=subprocess.PIPE, stdout=subprocess.PIPE, stderr=subprocess.PIPE, env=given)
        try:
            printed, complaints = going.communicate(text, timeout=MOST_SECONDS)
            status = going.returncode
        except subprocess.TimeoutExpired:
            going.kill()
            printed, complaints = going.communicate()
            status = None
        told = pathlib.Path(counted).read_text().split()
        os.unlink(counted)
        return Outcome(status, printed, complaints, {name: int(number) for name, number in (word.split("=") for word in told)})


class Judge:
    """Counts cases, and tells those that are not as they have to be."""

    def __init__(self):
        self.cases = self.wrong = 0

    def say(self, case, is_right, seen):
        self.cases += 1
        if not is_right:
            self.wrong += 1
            print(f"WRONG {case}: {seen}", flush=True)

    def told(self):
        print(f"{self.cases} cases, {self.wrong} wrong")
        return 1 if self.wrong else 0


class Case:
    """A text with its words and its number of sites, all lawful lists of its lines, its last line and its status."""

    def __init__(self, words, sites, text, lines, last, status=0):
        self.words, self.sites, self.text, self.lines, self.last, self.status = words, sites, text.encode(), lines, last, status


FIVE = b"local X in X = 5 {Browse X} end"

# two threads tell a variable two values: one of the tells fails
RACE = "local X in thread at 2 X = 1 end thread at 3 X = 2 end {Browse X} end"

# four threads at four sites count in one cell
CELL = """local C Z One L N D1 D2 D3 D4 U in
  Z = 0 One = 1 N = 25 U = done
  {NewCell Z C}
  L = proc {$ K D}
    local B in
      B = K =< Z
      if B then D = U
      else local O M K1 in
        {Exchange C O M} M = O + One K1 = K - One {L K1 D}
      end end
    end
  end
  thread at 1 {L N D1} end thread at 2 {L N D2} end
  thread at 3 {L N D3} end thread at 4 {L N D4} end
  {Wait D1} {Wait D2} {Wait D3} {Wait D4}
  local V in {Exchange C V V} {Browse V} end
end
"""

# every kind of statement and of value; its lines have one order
WHOLE = r"""local P Q C Z One Two L X Y W T K V N S G in
  Z = 0 One = 1 Two = 2 N = ~9223372036854775807
  P = proc {$ A B R} R = A + B end
  proc {Q X}
    case X of f(a:A 1:J 2:B 'two words':D) then {Browse A} {Browse D}
    else case X of H|T then {Browse H} else {Browse X} end end
  end
  X = f(One a:Two 2:Y 'two words':W) W = 'it\'s' Y = X
  {Q X} L = One|Two {Q L} {Q N} {P One Two S} {Q S}
  {NewCell L C}
  thread at 2 local O M in M = g(Y) {Exchange C O M} {Wait O} T = O end end
  {Wait T} {Browse T}
  thread at 3 try T = X catch E then K = E end end
  {Wait K} {Browse K}
  local B in B = One =< Two if B then G = T.1 else skip end end {Browse G}
  try local U in U = One div Z end catch E then {Browse E} end
  try local U in U = X.zz end catch E then {Browse E} end
  try {Z} catch E then {Browse E} end
  try X = 5 catch E then raise E end end
end
"""

WHOLE_LINES = [
    "2", r"'it\'s'", "1", "~9223372036854775807", "3", "1|2", "failure(tell)", "1", "error(zero)", "error(feature)", "error(apply)",
    "uncaught failure(tell)",
]

UNDECLARED = "local X in\n  X = 1\n  {Browse Y}\nend\n"

FAILED = "uncaught failure(tell)"
RACE_LINES = [lines for told in "12" for lines in ([told, FAILED], [FAILED, told])]

# threads that wait at three sites for the value of a variable, or at a test, while it is told equal to others; then it has one
TOLD = """local X Y Z A B One D E R S in
  One = 1
  thread {Wait X} D = X end
  thread at 2 {Wait Y} E = Y end
  thread at 3 R = X == Z end
  thread S = Y \\= Z end
  X = Y Y = A Z = B A = B
  {Browse R} {Browse S}
  A = One
  {Browse D} {Browse E}
end
"""
TOLD_LINES = ["true", "false", "1", "1"]

# sends and exchanges that wait for an answer of another site, and such as are served where they are made
ANSWERS = """local S P C A B in
  thread at 2 {NewPort S P} end
  {NewCellAt 0 C 3}
  {Wait P}
  {Send P a}
  local O in {Exchange C O 1} {Browse O} end
  thread at 3 local O in {Exchange C O 2} {Wait O} A = O end end
  {Browse A}
  thread at 2 {Send P b} B = done end
  {Wait B}
  case S of X|T then {Browse X} case T of Y|U then {Browse Y} else skip end else skip end
end
"""
ANSWERS_LINES = ["0", "1", "a", "b"]

# Each form of sugar, and a text that stands for a program which is too deep.
SUGAR = """local F G X in
  fun {F N} if N =< 1 then 1 else N * {F N - 1} end end
  fun {G Xs} case Xs of nil then 0 [] H|T then H.a + {G T} else ~1 end end
  try {Browse {F 5}} finally {Browse {G f(a:1)|f(a:2)|nil}} end
  try raise f(1 b:2) end catch E then {Browse E} finally {Browse (X) == X} end
end
"""
SUGAR_LINES = ["120", "3", "f(1 b:2)", "true"]
DEEP = f"local X in X = {'1|' * 120}nil end"

CASES = {
    "race": Case([], 3, RACE, RACE_LINES, "quiescent ended=3 waiting=0"),
    "cell": Case([], 4, CELL, [["100"]], "quiescent ended=5 waiting=0"),
    "gen": Case(["gen", "2"], 4, "", [["120", "20"]], "quiescent ended=7 waiting=0"),
    "whole": Case([], 4, WHOLE, [WHOLE_LINES], "quiescent ended=3 waiting=0"),
    "told": Case([], 3, TOLD, [TOLD_LINES], "quiescent ended=5 waiting=0"),
    "answers": Case([], 3, ANSWERS, [ANSWERS_LINES], "quiescent ended=4 waiting=0"),
    "refused": Case([], 4, UNDECLARED, [[]], "refused 3:11 undeclared", 3),
    "sugar": Case([], 4, SUGAR, [SUGAR_LINES], "quiescent ended=1 waiting=0"),
    "deep": Case([], 4, DEEP, [[]], "refused 1:214 nested too deep", 3),
}
