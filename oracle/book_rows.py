"""Texts of the book's language: the name of what each shows, the text, its translation where no library stands in front (None where that is
not told), and what it prints or how it is refused. Lines are told without the last where that is `quiescent ended=1 waiting=0`."""

ROWS = [
    (
        "declare",
        "declare X Y\nX=1\ndeclare Z=2 in\nY=X+Z {Browse Y}",
        "local X Y in  \nX=1\nlocal Z in Z=2 \nY=X+Z {Browse Y} end end",
        ["3"],
    ),
    (
        "declare/alone",
        "declare X",
        "local X in skip end",
        [],
    ),
    (
        "declare/local",
        "declare\nlocal C={NewCell 0} in fun {Next} C:=@C+1 @C end end\n{Browse {Next}+{Next}}",
        None,
        ["3"],
    ),
    (
        "local/pattern",
        "local X#Y=1#2 !Z=Y Z in {Browse Z} end",
        "local X Y Z in local V1 in V1 = '#'( X Y ) V1 = '#'( 1 2 ) end local V2 in V2 = Z V2 = Y end   {Browse Z} end",
        ["2"],
    ),
    (
        "body/in",
        "declare\nproc {P} X=1 Y in Y=X+1 {Browse Y} end\n{P}",
        "local P in\nproc {P} local X Y in X=1   Y=X+1 {Browse Y} end end\n{P} end",
        ["2"],
    ),
    (
        "fun/statements",
        "declare\nfun {F X} {Browse X} X+1 end\n{Browse {F 1}}",
        "local F in\nproc {F X V1 } {Browse X} V1 = X+1 end\n{Browse {F 1}} end",
        ["1", "2"],
    ),
    (
        "fun/kept",
        "local F in fun {F X} X end {Browse {F 1}} end",
        "local F in fun {F X} X end {Browse {F 1}} end",
        ["1"],
    ),
    (
        "fun/raise",
        "declare\nfun {F X} if X>0 then X else raise low(X) end end end\n{Browse {F 1}} {Browse {F 0}}",
        "local F in\nproc {F X V1 } if X>0 then V1 = X else raise low(X) end end end\n{Browse {F 1}} {Browse {F 0}} end",
        ["1", "uncaught low(0)"],
    ),
    (
        "fun/wild",
        "declare\nfun {F _ _} 1 end\n{Browse {F 2 3}}",
        "local F in\nfun {F V1 V2 } 1 end\n{Browse {F 2 3}} end",
        ["1"],
    ),
    (
        "if/no else",
        "if 1==2 then {Browse a} end {Browse b}",
        "if 1==2 then {Browse a} else skip end {Browse b}",
        ["b"],
    ),
    (
        "if/value no else",
        "{Browse if 1==2 then a end}",
        None,
        ["uncaught error(noElse)"],
    ),
    (
        "elseif",
        "declare\nfun {S X} if X<0 then ~1 elseif X==0 then 0 else 1 end end\n{Browse [{S ~5} {S 0} {S 7}]}",
        "local S in\nfun {S X} if X<0 then ~1 else if X==0 then 0 else 1 end end end\n{Browse {S ~5} | {S 0} | {S 7} | "
        "nil } end",
        ["~1|0|1|nil"],
    ),
    (
        "elsecase",
        "declare X=f(3)\ncase X of a then skip elsecase X of f(Y) then {Browse Y} end",
        "local X in X=f(3)\ncase X of a then skip else case X of f(Y) then {Browse Y} else raise error(noElse) end end "
        "end end",
        ["3"],
    ),
    (
        "case/no else",
        "case 5 of nil then skip end",
        "case 5 of nil then skip else raise error(noElse) end end",
        ["uncaught error(noElse)"],
    ),
    (
        "case/levels",
        "declare T=t(k l(1) [a b])\ncase T of t(_ l(2) _) then {Browse no} [] t(K l(N) [A B]) then {Browse K#N#A#B} end",
        "local T in T=t(k l(1) a | b | nil )\nlocal V1 in V1 = T  case case V1 of t(V2 V3 V4) then case V3 of l(V5) "
        "then case V5 of 2 then true else false end else false end else false end of true   then {Browse no} else case "
        "case V1 of t(V6 V7 V8) then case V7 of l(V9) then case V8 of V10|V11 then case V11 of V12|V13 then case V13 "
        "of nil then true(V6 V9 V10 V12) else false end else false end else false end else false end else false end of "
        "true(K N A B)    then {Browse '#'( K N A B ) } else raise error(noElse) end end end end end",
        ["'#'(k 1 a b)"],
    ),
    (
        "case/order",
        "declare A B in\nthread case A#B of x#y then {Browse yes} else {Browse no} end end\nA=z",
        "local A B in   \nthread local V1 in V1 = '#'( A B )  case case V1 of '#'(V2 V3) then case V2 of x then case V3 "
        "of y then true else false end else false end else false end of true then {Browse yes} else {Browse no} end "
        "end end\nA=z end",
        ["no", "quiescent ended=2 waiting=0"],
    ),
    (
        "case/guard",
        "declare\nfun {G Xs} case Xs of X|_ andthen X>2 then big [] X|_ then X else none end end\n{Browse {G [3]}#{G "
        "[1]}#{G nil}}",
        "local G in\nproc {G Xs V1 } local V2 in V2 = Xs  case case case V2 of V3|V4 then true(V3) else false end of "
        "true(X) then if  X>2 then true(X) else false end else false end of true(X) then V1 = big else case V2 of X| "
        "V5 then V1 = X else V1 = none end end end end\n{Browse '#'( {G 3 | nil } {G 1 | nil } {G nil} ) } end",
        ["'#'(big 1 none)"],
    ),
    (
        "case/escape",
        "declare X=1 Y=2\ncase f(Y 2) of f(X !Y) then {Browse X} end",
        "local X Y in X=1 Y=2\nlocal V1 in V1 = f(Y 2)  case case V1 of f(V2 V3) then if V3 == Y then true(V2) else "
        "false end else false end of true(X)  then {Browse X} else raise error(noElse) end end end end",
        ["2"],
    ),
    (
        "case/variable",
        "case 1+1 of X then {Browse X} [] a then skip end",
        "local V1 in V1 = 1+1  case true(V1) of true(X) then {Browse X} else case V1 of a then skip else raise "
        "error(noElse) end end end end",
        ["2"],
    ),
    (
        "precedence",
        "declare A=2 B=3 C=4\n{Browse A+B*C-1}{Browse A-B-C}{Browse ~A*B}{Browse A|B+1|nil}{Browse A#B==A#3}{Browse "
        "1#2|nil}",
        "local A B C in A=2 B=3 C=4\n{Browse ( A+ ( B*C ) ) -1}{Browse ( A-B ) -C}{Browse ( 0 - A ) *B}{Browse A| ( B+1 "
        ") |nil}{Browse '#'( A B ) == '#'( A 3 ) }{Browse '#'( 1 2 ) |nil} end",
        ["13", "~5", "~6", "2|4|nil", "true", "'#'(1 2)|nil"],
    ),
    (
        "andthen",
        "declare X=0\n{Browse X\\=0 andthen 1 div X>0}{Browse X==0 orelse 1 div X>0}",
        "local X in X=0\n{Browse if X\\=0 then ( 1 div X ) >0 else false end }{Browse if X==0 then true else ( 1 div X ) "
        ">0 end } end",
        ["false", "true"],
    ),
    (
        "lists",
        "declare Xs=[1 2+3 f(4)]\n{Browse Xs}{Browse [nil [a]]}{Browse a|[b]}",
        "local Xs in Xs= 1 | ( 2+3 ) | f(4) | nil\n{Browse Xs}{Browse nil | ( a | nil ) | nil }{Browse a| b | nil } end",
        ["1|5|f(4)|nil", "nil|(a|nil)|nil", "a|b|nil"],
    ),
    (
        "tuples",
        "{Browse 1#2#3}{Browse (1#2)#3}",
        "{Browse '#'( 1 2 3 ) }{Browse '#'( ( '#'( 1 2 ) ) 3 ) }",
        ["'#'(1 2 3)", "'#'('#'(1 2) 3)"],
    ),
    (
        "string",
        "{Browse \"hi\\n\"}{Browse &a-&\\n}{Browse \"\"}",
        "{Browse 104|105|10|nil }{Browse 97 - 10 }{Browse nil }",
        ["104|105|10|nil", "87", "nil"],
    ),
    (
        "wild",
        "declare X=f(_ 2) in X.1=1 {Browse X}",
        None,
        ["f(1 2)"],
    ),
    (
        "select",
        "declare T=t(a b c) I=1\n{Browse T.(I+1)}{Browse T.I}",
        None,
        ["b", "a"],
    ),
    (
        "cells",
        "declare C={NewCell 1}\nC:=@C+1 {Browse @C} {Browse C:=5} {Browse @C} {Browse {Exchange C $ 6}}",
        None,
        ["2", "2", "5", "5"],
    ),
    (
        "thread",
        "declare Xs=thread [1 2] end\n{Browse thread {Length Xs} end}",
        None,
        ["2", "quiescent ended=3 waiting=0"],
    ),
    (
        "try",
        "declare\nfun {D X Y} try X div Y catch error(zero) then none [] E then raise E end end end\n{Browse {D 6 2}#{D "
        "1 0}}",
        "local D in\nproc {D X Y V1 } try local V2 in V2 = X div Y V1 = V2 end catch V3 then case case V3 of error(V4) "
        "then case V4 of zero then true else false end else false end of true then V1 = none else case true(V3) of "
        "true(E) then raise E end else raise V3 end end end end end\n{Browse '#'( {D 6 2} {D 1 0} ) } end",
        ["'#'(3 none)"],
    ),
    (
        "try/again",
        "try raise a(1) end catch b(X) then {Browse X} finally {Browse z} end",
        "try raise a(1) end catch V1 then case V1 of b(X) then {Browse X} else raise V1 end end finally {Browse z} end",
        ["z", "uncaught a(1)"],
    ),
    (
        "call",
        "declare\nfun {Add X} fun {$ Y} X+Y end end\n{Browse {{Add 1} 2}}\n{proc {$ X} {Browse X} end 7}",
        None,
        ["3", "7"],
    ),
    (
        "hole",
        "declare S P={NewPort S}\nthread for get(X) in S do X=7 end end\n{Browse {Send P get($)}}",
        None,
        ["7", "quiescent ended=1 waiting=1"],
    ),
    (
        "for",
        "for I in 1..3 do {Browse I} end for X in [a b] do {Browse X} end for I in 5..1;~2 do {Browse I} end",
        None,
        ["1", "2", "3", "a", "b", "5", "3", "1"],
    ),
    (
        "left",
        "declare X Y in f(X Y)=f(1 2) {Browse X+Y} local [A]=[3] in {Browse A} end",
        "local X Y in    local V1 in V1 = f(X Y) V1 = f(1 2) end {Browse X+Y} local A in local V2 in V2 = A | nil V2 = "
        "3 | nil end  {Browse A} end end",
        ["3", "3"],
    ),
    (
        "chain",
        "declare X=Y=5 Y in {Browse X+Y}",
        "local X Y in local V1 in V1 = X V1 = Y V1 = 5 end   {Browse X+Y} end",
        ["10"],
    ),
    (
        "base",
        "{Browse {Map [1 2 3] fun {$ X} X*X end}}{ForAll [a b] Browse}{Browse {Sort [3 1 2] fun {$ X Y} X<Y end}}",
        None,
        ["1|4|9|nil", "a", "b", "1|2|3|nil"],
    ),
    (
        "base/declared",
        "declare fun {Map Xs F} own end\n{Browse {Map 1 2}}",
        "local Map in fun {Map Xs F} own end\n{Browse {Map 1 2}} end",
        ["own"],
    ),
    (
        "unit",
        "declare X=unit\ncase X of unit then {Browse X} end",
        "local X in X= 'unit'\ncase X of 'unit' then {Browse X} else raise error(noElse) end end end",
        ["'unit'"],
    ),
    (
        "new names",
        "declare V1=1 Do=2\n{Browse thread V1+Do end}",
        "local Doa in proc {Doa P X} {P X} end local V1 Do in V1=1 Do=2\n{Browse {Doa proc {$ Va1} thread Va1 = V1+Do "
        "end end} } end end",
        ["3", "quiescent ended=2 waiting=0"],
    ),
    (
        "label",
        "declare X=1 P proc {P A B} {Browse A#B} end\n{P a ~X+3}{P a#b (X)}",
        "local X P in X=1  proc {P A B} {Browse '#'( A B ) } end\n{P a () ( 0 - X ) +3}{P '#'( a b (X) ) } end",
        ["'#'(a 2)", "uncaught error(arity)"],
    ),
    (
        "atom for",
        "local F for in fun {F} for end end",
        None,
        ["refused 1:9 expected a statement"],
    ),
    (
        "refused/phrase",
        "declare X in\nX",
        None,
        ["refused 2:1 expected a statement"],
    ),
    (
        "refused/value",
        "declare\nfun {F X} X=1 end",
        None,
        ["refused 2:11 expected a value"],
    ),
    (
        "refused/two values",
        "declare\nfun {F X} X X+1 end",
        None,
        ["refused 2:11 expected a statement"],
    ),
    (
        "refused/expected",
        "declare\nfun {F X} X+ end",
        None,
        ["refused 2:14 expected a value"],
    ),
    (
        "refused/undeclared",
        "declare X=Y",
        None,
        ["refused 1:11 undeclared"],
    ),
    (
        "refused/undeclared name",
        "fun {Map X} X end",
        None,
        ["refused 1:6 undeclared"],
    ),
    (
        "refused/order",
        "declare X=Y\n{Browse",
        None,
        ["refused 2:8 expected a value or }"],
    ),
    (
        "refused/twice",
        "declare X in case X of f(A g(A)) then skip end",
        None,
        ["refused 1:30 given twice"],
    ),
    (
        "refused/built in",
        "{Browse 1 2}",
        None,
        ["refused 1:11 expected }"],
    ),
    (
        "refused/lock",
        "declare L in lock L then skip end",
        None,
        ["refused 1:14 expected a statement or the end of the text"],
    ),
    (
        "refused/compare",
        "{Browse 1<2<3}",
        None,
        ["refused 1:12 expected a value or }"],
    ),
    (
        "refused/string",
        "{Browse \"a",
        None,
        ["refused 1:9 open quote"],
    ),
    (
        "refused/hole",
        "declare P in {P $}",
        None,
        ["refused 1:14 expected a statement"],
    ),
    (
        "refused/declaration",
        "local in skip end",
        None,
        ["refused 1:7 expected a declaration"],
    ),
    (
        "refused/closer",
        "declare X in if X then skip else skip",
        None,
        ["refused 1:38 expected a statement or end"],
    ),
]


def many(count, said="1", between=" "):
    """A text so often, with another between."""
    return between.join([said] * count)


def numbered(count):
    return " ".join(f"X{number}" for number in range(1, count + 1))


# What is long, wide or deep, and what stands at the edges.
ROWS += [
    ("list/long", f"declare X=[{many(120)}] {{Browse {{Length X}}#{{Nth X 120}}}}", None, ["'#'(120 1)"]),
    ("list/long apart", f"{{Browse {{Length [{many(51)}]}}}}", None, ["51"]),
    (
        "list/pieces",
        f"declare X=[{many(51)}] {{Browse X.1}}",
        f"local X in local V1 in V1 = X local V2 in V1 = {many(50, '1', ' | ')} | V2 V2 = 1 | nil end end {{Browse X.1}} end",
        ["1"],
    ),
    ("string/long", f'{{Browse {{Length "{many(120, "a", "")}"}}}}', None, ["120"]),
    ("chain/long", f"{{Browse {{Length {many(150, '1', '|')}|nil}}}}", None, ["150"]),
    ("chain/kept", f"{{Browse ({many(60, '1', '|')}|nil).1}}", f"{{Browse ({many(60, '1', '|')}|nil).1}}", ["1"]),
    ("local/wide", f"local {numbered(65)} in X65=1 {{Browse X65}} end", None, ["1"]),
    (
        "brackets/label",
        '{Browse f([a] (1) "a" (2) unit (3))}',
        "{Browse f( a | nil () (1) 97|nil () (2) 'unit' () (3))}",
        ["f(a|nil 1 97|nil 2 'unit' 3)"],
    ),
    ("built in/value", "declare P=Browse in {P 1}", "local P in P= proc {$ V1} {Browse V1} end  {P 1} end", ["1"]),
    ("built in/pattern", "case 1 of !Browse then skip else {Browse no} end", None, ["no"]),
    (
        "fun/declarations",
        "declare fun {F} X=1 in X end {Browse {F}}",
        "local F in proc {F V1 } local X in X=1  V1 = X end end {Browse {F}} end",
        ["1"],
    ),
    (
        "new names/one alone",
        "declare V1=1 in {{fun {$ P} P end Browse} V1}",
        "local V1 in V1=1  local Va1 in local Va2 in Va2 = fun {$ P} P end Va1 = {Va2 proc {$ Va3} {Browse Va3} end } end {Va1 V1} end end",
        ["1"],
    ),
    (
        "for/library",
        "for X in [1 2] do {Browse X} end",
        "local Each in proc {Each Xs P} case Xs of nil then skip [] X|Xr then {P X} {Each Xr P} else raise error(type) end end end "
        "{Each   1 | 2 | nil proc {$ X} {Browse X} end } end",
        ["1", "2"],
    ),
    ("hole/in hole", "declare proc {P X Y Z} Z=X+Y end {Browse {P {P 1 2 $} 3 $}}", None, ["6"]),
    ("refused/hidden", "declare local C in C=1 X=C end {Browse C}", None, ["refused 1:40 undeclared"]),
    ("refused/deep", f"{many(500, '(', '')}1", None, ["refused 1:500 nested too deep"]),
    ("refused/deep sign", many(500, "1", "+"), None, ["refused 1:998 nested too deep"]),
    ("refused/levels kept", many(499, "1", "+"), None, ["refused 1:1 expected a statement"]),
    ("refused/fields", f"{{Browse f({many(65)})}}", None, ["refused 1:139 too many items"]),
    ("refused/formals of a function", f"declare fun {{F {numbered(64)}}} 1 end", None, ["refused 1:259 too many items"]),
    ("refused/arguments of a value", f"declare P in {{Browse {{P {many(64)}}}}}", None, ["refused 1:151 too many items"]),
    ("refused/feature", "{Browse f(1:a b)}", None, ["refused 1:15 given twice"]),
    ("refused/formal", "declare proc {P X _ X _} skip end", None, ["refused 1:21 given twice"]),
    ("refused/number first", "thread at 00 skip end", None, ["refused 1:11 bad number"]),
    ("refused/site", "thread at 0 skip end", None, ["refused 1:11 site below 1"]),
    ("refused/argument lacks", "{Browse {NewCell}}", None, ["refused 1:17 expected a value"]),
    ("refused/escape", '{Browse "a\\q"}', None, ["refused 1:11 bad escape"]),
    ("refused/character", "{Browse &\\", None, ["refused 1:10 bad escape"]),
    ("refused/kept open", "{Browse 'a\\", None, ["refused 1:9 open quote"]),
]

# Each name of the library alone: a text that uses it, and what it prints.
LIBRARY = {
    "Abs": ("{Browse {Abs ~3}#{Abs 4}}", "'#'(3 4)"),
    "Access": ("declare C={NewCell 5} in {Browse {Access C}}", "5"),
    "All": ("{Browse {All [2 4] IsEven}#{All [2 3] IsEven}#{All nil IsEven}}", "'#'(true false true)"),
    "And": ("{Browse {And true false}#{And true true}}", "'#'(false true)"),
    "Append": ("{Browse {Append [1 2] [3]}}", "1|2|3|nil"),
    "Assign": ("declare C={NewCell 5} in {Assign C 6} {Browse @C}", "6"),
    "Filter": ("{Browse {Filter [1 2 3 4] IsOdd}}", "1|3|nil"),
    "Flatten": ("{Browse {Flatten [1 [2 [3 nil]] nil [[4]]]}}", "1|2|3|4|nil"),
    "FoldL": ("{Browse {FoldL [1 2 3] fun {$ X Y} X-Y end 10}}", "4"),
    "FoldR": ("{Browse {FoldR [1 2 3] fun {$ X Y} X-Y end 10}}", "~8"),
    "ForAll": ("declare C={NewCell 0} in {ForAll [1 2 3] proc {$ X} C:=@C*10+X end} {Browse @C}", "123"),
    "IsEven": ("{Browse {IsEven ~2}#{IsEven 3}}", "'#'(true false)"),
    "IsOdd": ("{Browse {IsOdd ~3}#{IsOdd 2}}", "'#'(true false)"),
    "Length": ("{Browse {Length [a b c]}#{Length nil}}", "'#'(3 0)"),
    "List": ("{Browse {List.take [1 2 3] 2}#{List.drop [1 2 3] 2}#{List.last [1 2 3]}#{List.number 1 5 2}}", "'#'(1|2|nil 3|nil 3 1|3|5|nil)"),
    "Map": ("{Browse {Map [1 2 3] Abs}}", "1|2|3|nil"),
    "Max": ("{Browse {Max 2 7}#{Max 7 2}}", "'#'(7 7)"),
    "Member": ("{Browse {Member 2 [1 2]}#{Member 3 [1 2]}}", "'#'(true false)"),
    "Merge": ("{Browse {Merge [1 3] [2 4] fun {$ X Y} X<Y end}}", "1|2|3|4|nil"),
    "Min": ("{Browse {Min 2 7}#{Min 7 2}}", "'#'(2 2)"),
    "Not": ("{Browse {Not true}#{Not false}}", "'#'(false true)"),
    "Nth": ("{Browse {Nth [a b c] 2}}", "b"),
    "Or": ("{Browse {Or false true}#{Or false false}}", "'#'(true false)"),
    "Reverse": ("{Browse {Reverse [1 2 3]}}", "3|2|1|nil"),
    "Some": ("{Browse {Some [1 2] IsEven}#{Some [1 3] IsEven}}", "'#'(true false)"),
    "Sort": ("{Browse {Sort [3 1 2 3] fun {$ X Y} X<Y end}#{Sort nil Max}}", "'#'(1|2|3|3|nil nil)"),
}
