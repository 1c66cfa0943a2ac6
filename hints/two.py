"""Texts with two faults: the place of each, and a part of what is told of it. The first place is that of the program's answer."""

TWO = [
    (
        "local Xs in\n  Xs = [1 2 3]\n  {Browse Ys}\nend",
        ("2:8", "a list in brackets is written by bars: X = 1|2|nil"),
        ("3:11", "nothing around this place declares Ys: local Ys in .. end does"),
    ),
    (
        "local X Y in\n  X = 3*4+1\n  {Browse Z}\nend",
        ("2:10", "a value has one operator, and one inside another stands in brackets: X = (Y * Y) + 1, and (X mod 2)|"),
        ("3:11", "nothing around this place declares Z: local Z in .. end does"),
    ),
    (
        "local C in\n  C = {NewCell 0}\n  C := 5\n  {Browse Old}\nend",
        ("3:5", "a variable is told once; a cell is written by an exchange: C := X is local Old in {Exchange C Old X}"),
        ("4:11", "nothing around this place declares Old: local Old in .. end does"),
    ),
    (
        "local F in\n  fun {F X}\n    case X of H|T then 1\n    else 0\n  end\n  {Browse {F [1]}}\nend",
        ("6:3", "the fun of 2:3 is open here; the end of 5:3 stands under it and closes the case of 3:5"),
        ("6:14", "a list in brackets is written by bars: X = 1|2|nil"),
    ),
    (
        "local X in\n  X = 'it is late\n  {Browse Y}\nend",
        ("2:18", "the quote of 2:7 is not closed in its line: 'two words'"),
        ("3:11", "nothing around this place declares Y: local Y in .. end does"),
    ),
    (
        "local X in\n  if X = 0 then skip else skip end\n  Y = 1\nend",
        ("2:8", "a test has two =, as if X == 0 then; one = tells"),
        ("3:3", "nothing around this place declares Y: local Y in .. end does"),
    ),
    (
        "local F Y in\n  fun {F X} X + 1 end\n  Y = F(3)\n  {Browse G}\nend",
        ("3:8", "a call stands in braces, as {F 3}: brackets are those of a record, as f(3)"),
        ("4:11", "nothing around this place declares G: local G in .. end does"),
    ),
    (
        "local F Y in\n  Y = {F 1, 2}\n  {browse Y}\nend",
        ("2:11", "nothing stands between the parts of a list, a call or a record but blanks"),
        ("3:4", "a call begins with a variable, as {Browse X}: names of procedures have an upper-case letter"),
    ),
    (
        "local X in\n  X = 5;\n  {Browse Y}\nend",
        ("2:8", "statements stand behind each other, with nothing between"),
        ("3:11", "nothing around this place declares Y: local Y in .. end does"),
    ),
    (
        'local X in\n  X = "abc"\n  {Browse X Y}\nend',
        ("2:7", "there are no strings: an atom in single quotes shows a text, as 'two words'"),
        ("3:13", "Browse has one argument: {Browse f(X Y)}, and a text of several words stands in quotes"),
    ),
    (
        "local X Y in\n  X = -5\n  Y = -6\nend",
        ("2:7", "a negative integer is written with ~, as ~5"),
        ("3:7", "a negative integer is written with ~, as ~5"),
    ),
    (
        "local X in\n  X = f(1 2\n  {Browse X}\n  {Browse Y}\nend",
        ("3:11", "the ( of 2:8 has no ) before 3:3"),
        ("4:11", "nothing around this place declares Y: local Y in .. end does"),
    ),
    (
        "local A X in\n  X = A#B\nend",
        ("2:8", "a tuple with # is a record with the quoted label #: X = '#'(A B)"),
        ("2:9", "nothing around this place declares B: local B in .. end does"),
    ),
    (
        "local X Y in\n  {Browse X\n  {Browse Y}\n  Z = 1\nend",
        ("3:3", "the { of 2:3 has no } before 3:3"),
        ("4:3", "nothing around this place declares Z: local Z in .. end does"),
    ),
    (
        "local F in\n  fun {F X} return X end\n  {Browse Q}\nend",
        ("2:20", "there is no return: the body of a function is its value, and a procedure ends with its last statemen"),
        ("3:11", "nothing around this place declares Q: local Q in .. end does"),
    ),
    (
        "local X in\n  X = 3 + 4 * 2\n  if X == 14 then {Browse yes} end\nend",
        ("2:13", "a value has one operator, and one inside another stands in brackets: X = (Y * Y) + 1, and (X mod 2)|"),
        ("3:32", "an if and a case have an else: else skip end"),
    ),
    (
        "local Total in\n  total = 5\n  {Browse Totl}\nend",
        ("2:3", "names of variables begin with an upper-case letter; those with a lower-case one are atoms"),
        ("3:11", "nothing around this place declares Totl; is it Total?"),
    ),
    (
        "local X in\n  X == 3\n  {Browse [X]}\nend",
        ("2:5", "a tell has one =; a test is a value: B = X == Y, or if X == Y then"),
        ("3:11", "a list in brackets is written by bars: X = 1|2|nil"),
    ),
    (
        "local X Y\n  X = 1\n  Y = @X\nend",
        ("2:5", "behind the names of a local stands in: local X Y in .. end"),
        ("3:7", "a cell is read by an exchange with itself: X = @C is {Exchange C X X}"),
    ),
    (
        "local F in\n  fun {F Xs}\n    case Xs of [A B] then A else nil end\n  end\n  {Browse {F _}}\nend",
        ("3:16", "a pattern has one level, and no list in brackets: case X of A|T then case T of .. else .. end else ."),
        ("5:14", "for _ stands a variable that nothing else uses, and that a local or the pattern declares"),
    ),
    (
        "local A B in\n  if A andthen B then skip else skip end\n  if A orelse B then skip else skip end\nend",
        ("2:8", "A andthen E is if A then E else false end"),
        ("3:8", "A orelse E is if A then true else E end"),
    ),
    (
        "local X in\n  if X == 1 then {Browse a}\n  elseif X == 2 then {Browse b}\n  else skip end\n  {browse X}\nend",
        ("3:3", "an elseif is an if in the else: else if B then .. else .. end end"),
        ("5:4", "a call begins with a variable, as {Browse X}: names of procedures have an upper-case letter"),
    ),
    (
        "for I in 1..3 do\n  {Browse I}\nend\n{Browse J}",
        ("1:1", "there is no for: a loop is a procedure that calls itself"),
        ("4:9", "nothing around this place declares J: local J in .. end does"),
    ),
    (
        "local X in\n  X = thread {Work} end\n  {Browse X}\nend",
        ("2:7", "a statement has no value: X = thread E end is thread X = E end; a function with statements is a proc"),
        ("2:15", "nothing around this place declares Work: local Work in .. end does"),
    ),
    (
        "local X in\n  try skip catch f(Y) then {Browse Y} end\n  X = 0x1F\nend",
        ("2:18", "what is caught is a variable: catch E then case E of f(X) then .. else raise E end end"),
        ("3:8", "integers are decimal"),
    ),
    (
        "local X in\n  X = 5 // the first\n  {Browse Y}\nend",
        ("2:9", "a comment begins with %, or stands between /* and */"),
        ("3:11", "nothing around this place declares Y: local Y in .. end does"),
    ),
    (
        "local F in\n  fun {F X}\n    if X > 0 then 1 end\n  end\n  {Browse {F 1, 2}}\nend",
        ("3:21", "an if and a case that are values have an else: else none end"),
        ("5:15", "nothing stands between the parts of a list, a call or a record but blanks"),
    ),
    (
        "local P in\n  proc {P X} C={NewCell X} in {Browse C} end\n  {P 1 Q}\nend",
        ("2:14", "names before the in of a body are declared by a local: proc {P} local C in C = E .. end"),
        ("3:8", "nothing around this place declares Q: local Q in .. end does"),
    ),
    (
        "declare X Y\nX = 1\n{Browse Z}",
        ("1:1", "there is no declare: one local X Y in .. end stands around all"),
        ("3:9", "nothing around this place declares Z: local Z in .. end does"),
    ),
    (
        "local X in\n  X = 10 / 2\n  {Browse X / 3}\nend",
        ("2:10", "integers are divided by div, and mod gives the rest"),
        ("3:13", "integers are divided by div, and mod gives the rest"),
    ),
    (
        "local R in\n  R = point(x:1 y:2\n  {Browse R.x}\n  R.y = 7\nend",
        ("3:11", "the ( of 2:12 has no ) before 3:3"),
        ("4:4", "left of = stands a variable; a field is read by Y = X.a, and told by telling Y"),
    ),
    (
        "local X Y in\n  X = not Y\n  {Browse 5 != 3}\nend",
        ("2:7", "not E is if E then false else true end"),
        ("3:13", "what differs is tested by \\=, as X \\= Y"),
    ),
    (
        "local Map in\n  fun {Map Xs F}\n    case Xs of X|Xr then {F X}|{Map Xr G} else [] end\n  end\n  skip\nend",
        ("3:40", "nothing around this place declares G: local G in .. end does"),
        ("3:48", "the empty list is the atom nil"),
    ),
    (
        "local X in\n  case X of nil then skip\n  [] _ then skip\n  else skip end\n  {Browse W}\nend",
        ("3:6", "for _ stands a variable that nothing else uses, and that a local or the pattern declares"),
        ("5:11", "nothing around this place declares W: local W in .. end does"),
    ),
    (
        "local X in\n  X = (1 + 2\n  {Browse X + X * 2}\nend",
        ("3:3", "the ( of 2:7 has no ) before 3:3"),
        ("3:17", "a value has one operator, and one inside another stands in brackets: X = (Y * Y) + 1, and (X mod 2)|"),
    ),
    (
        "local X in\n  {Browse hello world}\n  {Browse Wrold}\nend",
        ("2:17", "Browse has one argument: {Browse f(X Y)}, and a text of several words stands in quotes"),
        ("3:11", "nothing around this place declares Wrold: local Wrold in .. end does"),
    ),
    (
        "local X Y in\n  X = Y = 3\n  print(X)\nend",
        ("2:9", "one = in a statement: a test has two, as X = (Y == 3), and two tells stand behind each other, as Y ="),
        ("3:3", "a call stands in braces and begins with a variable, as {Browse X}"),
    ),
    (
        "local P in\n  proc {P X}\n    if X then skip else skip\n  end\n  {P tru}\n  {Browse Xx}\nend",
        ("6:11", "nothing around this place declares Xx; is it X?"),
        ("3:5", "the proc of 2:3 is open here; the end of 4:3 stands under it and closes the if of 3:5"),
    ),
    (
        "local F in\n  fun {F N}\n    if N == 0 then 1\n    else N * {F N-1}\n    end\n  {Browse {F 3}}\n  {Browse K}\nend",
        ("6:3", "the fun of 2:3 has no end before 6:3, which stands under it"),
        ("7:11", "nothing around this place declares K: local K in .. end does"),
    ),
    (
        "local X in\n  X = 1\n  end\n  {Browse [1]}\nend",
        ("4:11", "a list in brackets is written by bars: X = 1|2|nil"),
        ("5:1", "an end is too many: all that was open has ended before; the end at 3:3 closes the local of 1:1"),
    ),
]
