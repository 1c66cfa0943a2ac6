"""The texts that bench/run measures: each grows with a number."""

KIB = 1024

COUNT = """
  proc {Count N ?L}
    local Ends in
      Ends = N =< Zero
      if Ends then L = nil
      else local M T in M = N - One L = N|T {Count M T} end end
    end
  end
"""

APPEND = """
  proc {Append Xs Ys ?Zs}
    case Xs of X|Xr then local Zr in Zs = X|Zr {Append Xr Ys Zr} end
    else Zs = Ys end
  end
"""


def constants(n):
    return f"Zero = 0 One = 1 N = {n} Nil = nil"


def countdown(n):
    """A loop of n turns."""
    return f"""local Loop Zero One N Nil in {constants(n)}
  proc {{Loop K}}
    local Ends in
      Ends = K =< Zero
      if Ends then skip else local M in M = K - One {{Loop M}} end end
    end
  end
  {{Loop N}}
end"""


def build_reverse(n):
    """A list of n elements built and reversed with an accumulator."""
    return f"""local Count Reverse Zero One N Nil L R in {constants(n)} {COUNT}
  proc {{Reverse Xs Done ?Ys}}
    case Xs of X|Xr then local More in More = X|Done {{Reverse Xr More Ys}} end
    else Ys = Done end
  end
  {{Count N L}} {{Reverse L Nil R}}
end"""


def naive_reverse(n):
    """A list of n elements reversed by appending each to the end: the steps grow by the square."""
    return f"""local Count Append Reverse Zero One N Nil L R in {constants(n)} {COUNT} {APPEND}
  proc {{Reverse Xs ?Ys}}
    case Xs of X|Xr then local Yr Last in {{Reverse Xr Yr}} Last = X|Nil {{Append Yr Last Ys}} end
    else Ys = nil end
  end
  {{Count N L}} {{Reverse L R}}
end"""


def ring(n):
    """A token passed round a ring of n threads."""
    return f"""local Start Pass Zero One N Nil First Last in {constants(n)}
  proc {{Pass In ?Out}} local T in T = token {{Wait In}} Out = T end end
  proc {{Start K In ?Out}}
    local Ends in
      Ends = K =< Zero
      if Ends then Out = In
      else local M Next in M = K - One thread {{Pass In Next}} end {{Start M Next Out}} end end
    end
  end
  {{Start N First Last}}
  First = token
  {{Wait Last}}
end"""


def streams(n):
    """n producers, each with a stream of eight elements, and one consumer that goes through all of them."""
    return f"""local Produce Consume Start Zero One Eight N Nil Ss Sum in {constants(n)} Eight = 8
  proc {{Produce K ?Xs}}
    local Ends in
      Ends = K =< Zero
      if Ends then Xs = nil else local M Xr in M = K - One Xs = K|Xr {{Produce M Xr}} end end
    end
  end
  proc {{Consume Xs S ?Sum}}
    case Xs of X|Xr then local T in T = S + X {{Consume Xr T Sum}} end else Sum = S end
  end
  proc {{Start K S ?Sum}}
    local Ends in
      Ends = K =< Zero
      if Ends then Sum = S
      else local M Xs T in M = K - One thread {{Produce Eight Xs}} end {{Consume Xs S T}} {{Start M T Sum}} end end
    end
  end
  {{Start N Zero Sum}}
end"""


def cell(n):
    """n increments of one cell."""
    return f"""local Loop C Zero One N Nil in {constants(n)}
  {{NewCell Zero C}}
  proc {{Loop K}}
    local Ends in
      Ends = K =< Zero
      if Ends then skip
      else local Old New M in {{Exchange C Old New}} New = Old + One M = K - One {{Loop M}} end end
    end
  end
  {{Loop N}}
end"""


def turns(n, declared, made, names, turn):
    """A loop of n turns, in each of which this is done with these variables of its own, after those were made."""
    return f"""local Loop {declared} Zero One N Nil in {constants(n)} {made}
  proc {{Loop K}}
    local Ends in
      Ends = K =< Zero
      if Ends then skip else local {names} in {turn} M = K - One {{Loop M}} end end
    end
  end
  {{Loop N}}
end"""


def sends(n):
    """n sends of one value to one port: each makes a variable, and tells the end the pair of the value and of it."""
    return turns(n, "S P A", "A = a {NewPort S P}", "M", "{Send P A}")


def pairs_told(n):
    """n variables, each made and told the pair of two values."""
    return turns(n, "A B", "A = a B = b", "M T", "T = A|B")


SERVE = """
  proc {Serve Xs}
    case Xs of X|Xr then case X of ask(Q A) then A = Q {Serve Xr} else skip end else skip end
  end
"""

ASK = """
  proc {Ask K}
    local Ends in
      Ends = K =< Zero
      if Ends then skip else local A M Q in Q = ask(K A) {Send P Q} {Wait A} M = K - One {Ask M} end end
    end
  end
"""


def agent(n, place=""):
    """n questions to an agent, one after the other; who asks may be placed."""
    return f"""local Serve Ask S P Zero One N Nil in {constants(n)} {{NewPort S P}} {SERVE} {ASK}
  thread {{Serve S}} end
  thread {place} {{Ask N}} end
end"""


def marks(n):
    """n nested catch marks, and a raise that goes through them: each handler raises again."""
    return f"""local Deep Zero One N Nil in {constants(n)}
  proc {{Deep K}}
    local Ends in
      Ends = K =< Zero
      if Ends then raise N end
      else
        local M in
          M = K - One
          try {{Deep M}} catch E then raise E end end
        end
      end
    end
  end
  try {{Deep N}} catch E then skip end
end"""


def tree(n):
    """A tree of n nodes, nearly, built and summed: n is 2 to some power."""
    depth = n.bit_length() - 1
    return f"""local Build Sum Zero One N Nil T S in {constants(depth)}
  proc {{Build K ?T}}
    local Ends in
      Ends = K =< Zero
      if Ends then T = leaf
      else local L R M in T = node(K L R) M = K - One {{Build M L}} {{Build M R}} end end
    end
  end
  proc {{Sum T ?S}}
    case T of node(K L R) then local A B C in {{Sum L A}} {{Sum R B}} C = A + B S = C + K end
    else S = 0 end
  end
  {{Build N T}} {{Sum T S}}
end"""


def waiters(n):
    """n threads that wait, and one that runs: a loop of n turns beside them."""
    return f"""local Start Loop Zero One N Nil Never in {constants(n)}
  proc {{Start K}}
    local Ends in
      Ends = K =< Zero
      if Ends then skip else local M in M = K - One thread {{Wait Never}} end {{Start M}} end end
    end
  end
  proc {{Loop K}}
    local Ends in
      Ends = K =< Zero
      if Ends then skip else local M in M = K - One {{Loop M}} end end
    end
  end
  {{Start N}} {{Loop N}}
end"""


def told_equal(n, place=""):
    """n threads that wait for a variable, which is told equal to n others, one after the other. Before the next one is told, a thread that
    is born behind all that go on has run, where they are placed."""
    return f"""local Start Tell X Zero One N Nil in {constants(n)}
  proc {{Start K Y}}
    local Ends in
      Ends = K =< Zero
      if Ends then skip else local M in M = K - One thread {place} {{Wait Y}} end {{Start M Y}} end end
    end
  end
  proc {{Tell K Y}}
    local Ends in
      Ends = K =< Zero
      if Ends then {{Start N Y}}
      else local M Z Done in
        M = K - One {{Tell M Z}} Z = Y thread {place} Done = One end {{Wait Done}}
      end end
    end
  end
  {{Tell N X}} X = One
end"""


def tells(n):
    """n tells of one value, one after the other."""
    return "local X in X = 5\n" + "X = 5\n" * n + "end"


def show_list(n):
    """A list of n elements built and shown: its line is cut at 1,000 nodes."""
    return f"""local Count Zero One N Nil L in {constants(n)} {COUNT} {{Count N L}} {{Browse L}} end"""


def equal_lists(n):
    """Two lists of n equal elements, made equal."""
    return f"""local Count Zero One N Nil L M in {constants(n)} {COUNT} {{Count N L}} {{Count N M}} L = M end"""


def equal_rings(n):
    """Two rings of n nodes, made equal."""
    return f"""local Ring Zero One N Nil L M in {constants(n)}
  proc {{Ring K First ?L}}
    local Ends in
      Ends = K =< One
      if Ends then L = f(First) else local M T in M = K - One L = f(T) {{Ring M First T}} end end
    end
  end
  {{Ring N L L}} {{Ring N M M}} L = M
end"""


def compared_lists(n):
    """Two lists of n equal elements, compared."""
    return f"""local Count Zero One N Nil L M R in {constants(n)} {COUNT} {{Count N L}} {{Count N M}} R = L == M {{Wait R}} end"""


def compared_streams(n):
    """Two lists of n equal elements, compared while two threads make them."""
    return f"""local Count Zero One N Nil L M R in {constants(n)} {COUNT}
  thread {{Count N L}} end thread {{Count N M}} end R = L == M {{Wait R}}
end"""


def compared_rings(n):
    """A ring of n nodes and one of seven, compared: each node of the one meets each of the other, where n is no multiple of seven."""
    return f"""local Ring Zero One N Seven Nil L M R in {constants(n)} Seven = 7
  proc {{Ring K First ?L}}
    local Ends in
      Ends = K =< One
      if Ends then L = f(First) else local M T in M = K - One L = f(T) {{Ring M First T}} end end
    end
  end
  {{Ring N L L}} {{Ring Seven M M}} R = L == M {{Wait R}}
end"""


def compared_coprime(n):
    """A ring of n nodes and one of n + 1, compared: each node of the one meets each of the other."""
    return f"""local Ring Zero One N More Nil L M R in {constants(n)} More = {n + 1}
  proc {{Ring K First ?L}}
    local Ends in
      Ends = K =< One
      if Ends then L = f(First) else local M T in M = K - One L = f(T) {{Ring M First T}} end end
    end
  end
  {{Ring N L L}} {{Ring More M M}} R = L == M {{Wait R}}
end"""


def awaited_list(n):
    """n threads that wait for the same four variables, and for those of them that are left each time when one is bound."""
    return f"""local Start Zero One N Nil Left Right A B C D in {constants(n)} Left = f(A B) Right = f(C D)
  proc {{Start K}}
    local Ends in
      Ends = K =< Zero
      if Ends then skip else local M R in M = K - One thread R = Left == Right {{Wait R}} end {{Start M}} end end
    end
  end
  {{Start N}}
  thread A = One end thread {{Wait A}} C = One end thread {{Wait C}} B = One end thread {{Wait B}} D = One end
end"""


def association_list(n):
    """A key looked up in a list of n pairs, of which the last has it: each key is compared with it."""
    return f"""local Make Look Zero One N Nil L Sought Value in {constants(n)}
  proc {{Make K ?L}}
    local Ends in
      Ends = K =< Zero
      if Ends then L = nil
      else local M Key T P in M = K - One Key = key(K) P = pair(Key K) L = P|T {{Make M T}} end end
    end
  end
  proc {{Look Xs Sought ?Value}}
    case Xs of X|Xr then
      case X of pair(Key V) then
        local Is in Is = Key == Sought if Is then Value = V else {{Look Xr Sought Value}} end end
      else Value = none end
    else Value = none end
  end
  {{Make N L}} Sought = key(One) {{Look L Sought Value}} {{Wait Value}}
end"""


def shown_while_made(n):
    """A list of n elements that is shown while threads make it, one element each. What is not whole yet is not shown."""
    return f"""local Make Zero One N Nil L in {constants(n)}
  proc {{Make K ?L}}
    local Ends in
      Ends = K =< Zero
      if Ends then L = nil
      else local M T in L = K|T M = K - One thread {{Make M T}} end end end
    end
  end
  thread {{Browse L}} end
  {{Make N L}}
end"""


def born(body="skip"):
    """Threads that are born for ever, each of which does this."""
    return f"local X P in proc {{P}} thread {body} end {{P}} end {{P}} end"


def chain(n, tell):
    return f"""local Chain Zero One N Nil First Last in {constants(n)}
  proc {{Chain K X ?Y}}
    local Ends in
      Ends = K =< Zero
      if Ends then Y = X
      else local M Next in {tell} M = K - One {{Chain M Next Y}} end end
    end
  end
  {{Chain N First Last}} Last = a {{Browse First}}
end"""


def chain_down(n):
    """n variables, each told to be the one before."""
    return chain(n, "Next = X")


def chain_up(n):
    """n variables, joined from the last to the first."""
    return f"""local Chain Zero One N Nil First Last in {constants(n)}
  proc {{Chain K X ?Y}}
    local Ends in
      Ends = K =< Zero
      if Ends then Y = X
      else local M Next in M = K - One {{Chain M Next Y}} X = Next end end
    end
  end
  {{Chain N First Last}} Last = a {{Browse First}}
end"""


def chain_read(n):
    """n variables, joined from the last to the first, and the last of them looked at n times."""
    return f"""local Chain Read Zero One N Nil First Last in {constants(n)}
  proc {{Chain K X ?Y}}
    local Ends in
      Ends = K =< Zero
      if Ends then Y = X
      else local M Next in M = K - One {{Chain M Next Y}} X = Next end end
    end
  end
  proc {{Read K}}
    local Ends in
      Ends = K =< Zero
      if Ends then skip else local M in {{Wait Last}} M = K - One {{Read M}} end end
    end
  end
  {{Chain N First Last}} First = a {{Read N}}
end"""


# texts that are read: pieces side by side

def statements():
    """Small statements."""
    return "local X in X = a end\n"


def nests():
    """Nests of 200 levels."""
    return "local X in " * 199 + "skip" + " end" * 199 + "\n"


def locals_():
    """Declarations of 64 variables."""
    names = " ".join(f"V{k}" for k in range(64))
    return f"local {names} in V0 = V63 end\n"


def functions():
    """Functions, calls within operators, and records of values."""
    return "local F X in fun {F N} if N =< 1 then 1 else N * {F N - 1} end end X = f(1 a:{F 2}) end\n"


def lists():
    """Lists of integers."""
    return "local X in X = " + "1|" * 98 + "nil end\n"


def repeated(piece, size):
    """A text of so many KiB, of pieces side by side."""
    one = piece()
    return (one * (size * KIB // len(one))).ljust(size * KIB)


# shape, the degree of its steps, the sizes that find them, the first size measured, and how often it is doubled
SHAPES = [
    (countdown, 1, (8, 16, 32), 25000, 3),
    (build_reverse, 1, (8, 16, 32), 10000, 3),
    (naive_reverse, 2, (4, 8, 12, 16), 100, 3),
    (ring, 1, (8, 16, 32), 5000, 3),
    (streams, 1, (8, 16, 32), 1000, 3),
    (cell, 1, (8, 16, 32), 10000, 3),
    (sends, 1, (8, 16, 32), 10000, 3),
    (pairs_told, 1, (8, 16, 32), 10000, 3),
    (agent, 1, (8, 16, 32), 5000, 3),
    (marks, 1, (8, 16, 32), 10000, 3),
    (tree, 1, (8, 16, 32), 4096, 3),
    (waiters, 1, (8, 16, 32), 10000, 3),
    (told_equal, 1, (8, 16, 32), 2000, 3),
    (tells, 1, (8, 16, 32), 20000, 3),
    (show_list, 1, (2000, 2001, 2003), 10000, 3),
    (equal_lists, 1, (8, 16, 32), 4000, 3),
    (equal_rings, 1, (8, 16, 32), 4000, 3),
    (compared_lists, 1, (8, 16, 32), 4000, 3),
    (compared_streams, 1, (8, 16, 32), 4000, 3),
    (compared_rings, 1, (8, 16, 32), 1000, 3),
    (association_list, 1, (8, 16, 32), 2000, 3),
    (awaited_list, 1, (80, 160, 320), 1250, 3),
    (chain_down, 1, (8, 16, 32), 10000, 3),
    (chain_up, 1, (8, 16, 32), 10000, 3),
    (chain_read, 1, (8, 16, 32), 10000, 3),
]

# shapes whose steps do not tell their work: shape, what it does as its size tells, the degree of its steps, the sizes that find them,
# the first size measured, and how often it is doubled
COMPARED = [
    (compared_coprime, lambda n: n * (n + 1), 1, (8, 16, 32), 50, 3),
]

TEXTS = [statements, nests, locals_, functions, lists]
TEXT_SIZES = (128, 256, 512, 1024)
