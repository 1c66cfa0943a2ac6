"""The programs of bench/run that are placed on sites: each grows with a number."""
from shapes import COUNT, agent, constants, told_equal


def large(n):
    """The text of `gen n`."""
    return f"""local C E Z One J P Q R in Z = 0 One = 1 J = 10
{{NewCell Z C}} {{NewCell Z E}}
P = proc {{$ K J S}} local B in B = J =< Z if B then S = nil else local O M K1 J1 T in {{Exchange C O M}} M = O + One K1 = K + One J1 = J - One S = K|T {{P K1 J1 T}} end end end end
Q = proc {{$ S A D}} case S of H|T then local F in F = A + H {{Q T F D}} end else D = A end end
R = proc {{$ D}} local O M in {{Exchange E O M}} thread M = O + D end end end
{"".join(stream(k) for k in range(1, n + 1))}local T V in {{Exchange E T T}} {{Browse T}} {{Exchange C V V}} {{Browse V}} end end
"""


def stream(k):
    return f"local K S D in K = {k} thread at {k} {{P K J S}} end thread at {k + 1} {{Q S Z D}} end {{R D}} end\n"


INCREASE = """
  proc {Increase K ?Done}
    local Ends in
      Ends = K =< Zero
      if Ends then Done = done
      else local Old New M in {Exchange C Old New} New = Old + One {Wait New} M = K - One {Increase M Done} end end
    end
  end
"""

ADD = """
  proc {Add Xs S ?Sum}
    case Xs of X|Xr then local T in T = S + X {Add Xr T Sum} end else Sum = S end
  end
"""


def round_cell(n):
    """A cell that four sites exchange n times each, and so goes round."""
    return f"""local Increase C Zero One N Nil A B D E in {constants(n)} {{NewCell Zero C}} {INCREASE}
  thread at 1 {{Increase N A}} end thread at 2 {{Increase N B}} end
  thread at 3 {{Increase N D}} end thread at 4 {{Increase N E}} end
  {{Wait A}} {{Wait B}} {{Wait D}} {{Wait E}}
end"""


def home_cell(n):
    """A stationary cell that four sites exchange n times each, one of which is its home."""
    return round_cell(n).replace("{NewCell Zero C}", "{NewCellAt Zero C One}")


def senders(n):
    """n threads over four sites that send to one port, each once, and one that goes through what is sent."""
    places = "\n".join(f"thread at {k % 4 + 1} {{Send P A}} end" for k in range(n))
    return f"""local Length S P A Zero One N Nil Z in {constants(n)} A = a {{NewPort S P}}
  proc {{Length Xs S ?R}}
    local Ends in
      Ends = N =< S
      if Ends then R = S else case Xs of X|Xr then local T in T = S + One {{Length Xr T R}} end else skip end end
    end
  end
  {places}
  {{Length S Zero Z}}
end"""


def agent_elsewhere(n):
    """n questions to an agent at another site."""
    return agent(n, "at 2")


def told_equal_elsewhere(n):
    """The same, but the threads wait at another site."""
    return told_equal(n, "at 2")


def list_read(n):
    """A list of n elements made at one site and read at another."""
    return f"""local Count Add Zero One N Nil L Sum in {constants(n)} {COUNT} {ADD}
  thread at 1 {{Count N L}} end
  thread at 2 {{Add L Zero Sum}} end
  {{Wait Sum}}
end"""


def list_known(n):
    """A list of n times one element, which is whole at one site before another goes through it."""
    return f"""local Fill Length A Zero One N Nil L in {constants(n)} A = a
  proc {{Fill K ?L}}
    local Ends in
      Ends = K =< Zero
      if Ends then L = nil else local M T in L = A|T M = K - One {{Fill M T}} end end
    end
  end
  proc {{Length Xs S ?R}}
    case Xs of X|Xr then local T in T = S + One {{Length Xr T R}} end else R = S end
  end
  {{Fill N L}}
  thread at 2 local S in {{Length L Zero S}} end end
end"""


def numbers_known(n):
    """A list of n numbers, each a variable of its own, which is whole at one site before another adds it up."""
    return f"""local Count Add Zero One N Nil L in {constants(n)} {COUNT} {ADD}
  {{Count N L}}
  thread at 2 local S in {{Add L Zero S}} end end
end"""


def met_by_three(n):
    """n variables that three sites meet, each bound after they were met or before."""
    return f"""local Make Add Zero One N Nil L A B in {constants(n)} {ADD}
  proc {{Make K ?L}}
    local Ends in
      Ends = K =< Zero
      if Ends then L = nil
      else local M T X in M = K - One L = X|T thread X = K end {{Make M T}} end end
    end
  end
  thread at 2 {{Add L Zero A}} end thread at 3 {{Add L Zero B}} end
  {{Make N L}} {{Wait A}} {{Wait B}}
end"""


def placed_threads(n):
    """n threads placed over 64 sites."""
    return "\n".join(f"thread at {k % 64 + 1} skip end" for k in range(n))


def asked_by_all(n):
    """A cell that 64 sites ask for at once, n times each."""
    threads = "\n  ".join(f"thread at {k} {{Wait Go}} {{Increase N D{k}}} end" for k in range(2, 64))
    names = " ".join(f"D{k}" for k in range(2, 56))
    more = " ".join(f"D{k}" for k in range(56, 64))
    return f"""local {names} Increase C Zero One N Nil Go in local {more} in {constants(n)} {{NewCell Zero C}} {INCREASE}
  {threads}
  Go = go
end end"""


def loops(n, sites):
    """A loop of n turns at each of so many sites."""
    threads = " ".join(f"thread at {site} {{Loop N}} end" for site in range(1, sites + 1))
    return f"""local Loop Zero One N Nil in {constants(n)}
  proc {{Loop K}}
    local Ends in
      Ends = K =< Zero
      if Ends then skip else local M in M = K - One {{Loop M}} end end
    end
  end
  {threads}
end"""


def spread(n):
    """A loop of n turns at each of four sites."""
    return loops(n, 4)


def asked_first(n):
    """A saved run in which n threads ask a stationary cell before its home hears that it was made."""
    text = f"local C X K in X = 7 K = 3 thread at 2 {'thread {Exchange C X X} end ' * n}end {{NewCellAt X C K}} end"
    threads = [f"2.{k}" for k in range(n)]
    spawning = turns_of(2, 0, ["1.1"] * (n + 1)) + turns_of(2, None, threads)
    asking = ["turn 1 2"] + turns_of(2, 3, threads)
    kept = [f"turn 3 {4 + k}" for k in range(n)] + ["turn 3 1"]
    answered = [f"turn 2 {4 + n + k} {thread} {thread}" for k, thread in enumerate(threads)]
    entries = [turns_of(1, None, ["1.0"] * 15), spawning, asking, kept, answered]
    made = "\n".join(entry for part in entries for entry in part)
    return f"ozrun 1 3 1000000000 4000000000 {len(text)}\n{text}\n{made}\nend quiescent ended={n + 2} waiting=0\n"


def turns_of(site, message, units):
    """Turns of a site with these units, as many as they take, the first of which delivers a message, if one is given."""
    parts = [units[at:at + 64] for at in range(0, len(units), 64)]
    return [" ".join(["turn", str(site), "-" if message is None or at else str(message), *part]) for at, part in enumerate(parts)]


# programs that are placed on sites: shape, the number of sites, the first size measured, and how often it is doubled
PLACED = [
    (round_cell, 4, 2000, 3),
    (home_cell, 4, 2000, 3),
    (senders, 4, 2000, 3),
    (agent_elsewhere, 2, 2000, 3),
    (list_read, 2, 4000, 3),
    (list_known, 2, 4000, 3),
    (numbers_known, 2, 4000, 3),
    (met_by_three, 3, 2000, 3),
    (told_equal_elsewhere, 2, 2000, 3),
    (placed_threads, 64, 2000, 3),
    (asked_by_all, 64, 40, 3),
    (spread, 4, 5000, 3),
]
