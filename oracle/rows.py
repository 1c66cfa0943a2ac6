"""Texts with all of their outputs, worked out by hand from docs/language.md."""

ENDED = "quiescent ended={} waiting=0\n"

TWO_TELLS = "local X in thread at 2 X = 1 end thread at 3 X = 2 end {Browse X} end"

TWO_LOCKS = """local NewLock A B Both P in
  proc {NewLock ?Lock}
    local Free C in
      Free = free {NewCell Free C}
      proc {Lock Q} local Old New in {Exchange C Old New} {Wait Old} {Q} New = Free end end
    end
  end
  {NewLock A} {NewLock B}
  P = proc {$} skip end
  proc {Both First Second} local Q in Q = proc {$} {Second P} end {First Q} end end
  thread {Both A B} end
  thread {Both B A} end
end"""

ONE_ORDER = TWO_LOCKS.replace("{Both B A}", "{Both A B}")

LOST_COUNT = """local C Zero One Add D1 D2 in
  Zero = 0 One = 1 {NewCell Zero C}
  proc {Add ?D}
    local X Y Old in {Exchange C X X} Y = X + One {Exchange C Old Y} D = Y end
  end
  thread {Add D1} end
  thread {Add D2} end
  {Wait D1} {Wait D2}
  local X in {Exchange C X X} {Browse X} end
end"""

COUNT_OF_FOUR = """local C Zero One Often Fifty D1 D2 D3 D4 in
  Zero = 0 One = 1 Fifty = 50 {NewCell Zero C}
  proc {Often K ?D}
    case K of 0 then D = done
    else
      local Old New Less in
        {Exchange C Old New} New = Old + One
        Less = K - One {Often Less D}
      end
    end
  end
  thread at 1 {Often Fifty D1} end thread at 2 {Often Fifty D2} end
  thread at 3 {Often Fifty D3} end thread at 4 {Often Fifty D4} end
  {Wait D1} {Wait D2} {Wait D3} {Wait D4}
  local V in {Exchange C V V} {Browse V} end
end"""

COUNT = "local Old New in {{Exchange C Old New}} New = Old {} One end"
READ_BESIDE_COUNTS = (
    "local C Zero One in Zero = 0 One = 1 {NewCell Zero C} "
    + f"thread {COUNT.format('+')} end thread {COUNT.format('+')} end "
    + "local V in {Exchange C V V} {Browse V} end end"
)
COUNT_AT_THE_EDGE = (
    "local C Most One D1 D2 in Most = 170141183460469231731687303715884105727 One = 1 {NewCell Most C} "
    + f"thread {COUNT.format('+')} D1 = done end thread {COUNT.format('-')} D2 = done end "
    + "{Wait D1} {Wait D2} {Browse D1} end"
)
LATE_AMOUNT = (
    "local C Zero One K D in Zero = 0 One = 1 {NewCell Zero C} "
    + f"thread {COUNT.format('+')} D = done end "
    + "thread local Old New in {Exchange C Old New} New = Old + K end end "
    + "{Wait D} {Browse D} K = One end"
)
KEPT_CONTENT = (
    "local C Zero One Ten in Zero = 0 One = 1 Ten = 10 {NewCell Zero C} "
    + "thread local Old New in {Exchange C Old New} New = Old + One {Browse Old} end end "
    + "local Old New in {Exchange C Old New} New = Old + Ten end end"
)
MAILBOX = """local Mail Xs A B in
  A = a B = b {NewCell Xs Mail}
  thread local Old New in {Exchange Mail Old New} Old = A|New end end
  thread local Old New in {Exchange Mail Old New} Old = B|New end end
  case Xs of X|Xr then case Xr of Y|Yr then {Browse X} {Browse Y} else skip end else skip end
end"""
STREAM = """local Xs A Nil in
  A = a Nil = nil
  thread local Xr in Xs = A|Xr Xr = A|Nil end end
  {Browse Xs}
end"""

TWO_SENDERS = """local S P A B in
  A = a B = b {NewPort S P}
  thread at 2 {Send P A} end
  thread at 3 {Send P B} end
  case S of X|Xr then {Browse X} case Xr of Y|Yr then {Browse Y} else skip end else skip end
end"""
ONE_SENDER = TWO_SENDERS.replace(" end\n  thread at 3", "")
PORT_IS_FORWARDED = """local S T P Q A B in
  A = a B = b {NewPort S P} {NewPort T Q} {Send Q P}
  thread case T of R|U then {Send R A} else skip end end
  thread {Send P B} end
  case S of X|Xr then {Browse X} else skip end
end"""
PLACED_LOST_COUNT = LOST_COUNT.replace("{NewCell Zero C}", "{NewCellAt Zero C One}")

ROWS = [
    ("skip", ["quiescent ended=1 waiting=0\n"]),
    ("local X in {Wait X} end", ["quiescent ended=0 waiting=1\n"]),
    ("local X in X = 1 X = 2 end", ["uncaught failure(tell)\n" + ENDED.format(1)]),
    (
        TWO_TELLS,
        [lines + ENDED.format(3) for lines in ("1\nuncaught failure(tell)\n", "2\nuncaught failure(tell)\n")]
        + [lines + ENDED.format(3) for lines in ("uncaught failure(tell)\n1\n", "uncaught failure(tell)\n2\n")],
    ),
    (
        "local A B C in A = a B = b C = c thread {Browse A} end thread {Browse B} end {Browse C} end",
        ["\n".join(order) + "\n" + ENDED.format(3) for order in ("abc", "acb", "bac", "bca", "cab", "cba")],
    ),
    (TWO_LOCKS, [ENDED.format(3), "quiescent ended=1 waiting=2\n"]),
    (ONE_ORDER, [ENDED.format(3)]),
    (LOST_COUNT, ["1\n" + ENDED.format(3), "2\n" + ENDED.format(3)]),
    (COUNT_OF_FOUR, ["200\n" + ENDED.format(5)]),
    (READ_BESIDE_COUNTS, ["0\n" + ENDED.format(3), "1\n" + ENDED.format(3), "2\n" + ENDED.format(3)]),
    (COUNT_AT_THE_EDGE, ["done\n" + ENDED.format(3), "uncaught error(overflow)\nquiescent ended=1 waiting=2\n"]),
    (LATE_AMOUNT, ["done\n" + ENDED.format(3), "quiescent ended=0 waiting=3\n"]),
    (KEPT_CONTENT, ["0\n" + ENDED.format(2), "10\n" + ENDED.format(2)]),
    (MAILBOX, ["a\nb\n" + ENDED.format(3), "b\na\n" + ENDED.format(3)]),
    (STREAM, ["a|a|nil\n" + ENDED.format(2)]),
    (TWO_SENDERS, ["a\nb\n" + ENDED.format(3), "b\na\n" + ENDED.format(3)]),
    (ONE_SENDER, ["a\nb\n" + ENDED.format(2)]),
    (PORT_IS_FORWARDED, ["a\n" + ENDED.format(3), "b\n" + ENDED.format(3)]),
    ("local S P X in {NewPort S P} S = X {Send P X} {Browse P} end", ["<Port>\n" + ENDED.format(1)]),
    ("local S P X in X = x {NewPort S P} S = X {Send P X} end", ["uncaught failure(tell)\n" + ENDED.format(1)]),
    ("local P X in P = x {Send P X} end", ["uncaught error(type)\n" + ENDED.format(1)]),
    (PLACED_LOST_COUNT, ["1\n" + ENDED.format(3), "2\n" + ENDED.format(3)]),
    ("local X C K in X = 1 K = 0 {NewCellAt X C K} end", ["uncaught error(type)\n" + ENDED.format(1)]),
    ("local X C K in X = 1 {NewCellAt X C K} end", ["quiescent ended=0 waiting=1\n"]),
]
