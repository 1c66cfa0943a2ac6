% The library of the book's language. Where a text uses one of these names and does not declare it, the definition is put before the text,
% with those that it uses itself. Each is a text of the small language that `run` reads. A comment names what stands below it. Results come last.
%
% First the helpers. No text names them: what the translation of a text needs is written by their calls.
declare

% Any: a variable that nothing binds, for `_`.
proc {Any X} skip end

% Do: the value that some statements make, where a value must stand.
proc {Do P X} {P X} end

% Dot: the field of a record whose feature is found first, for `E.(F)`.
fun {Dot X F} X.F end

% Each: a call for each element of a list, for `for X in Xs`.
proc {Each Xs P}
   case Xs of nil then skip
   [] X|Xr then {P X} {Each Xr P}
   else raise error(type) end end
end

% Get: the content of a cell, for `@C`.
proc {Get C X} {Exchange C X X} end

% Range: a call for each integer from one to another, for `for X in A..B`.
proc {Range A B P}
   if A < B then {P A} {Range A + 1 B P} else if A =< B then {P A} else skip end end
end

% Set: gives a cell another content, for `C := X`.
proc {Set C X} local Y in {Exchange C Y X} end end

% Step: a call for each integer from one to another in steps, for `for X in A..B;C`.
proc {Step A B C P}
   if if C < 0 then B =< A else A =< B end then {P A} {Step A + C B C P} else skip end
end

% Swap: gives a cell another content and answers the one before, for `C := X` as a value.
proc {Swap C Y X} {Exchange C X Y} end

% The names of the library, each as the book has it.

% Abs: an integer without its sign.
fun {Abs X} if X < 0 then 0 - X else X end end

% Access: the content of a cell.
proc {Access C X} {Exchange C X X} end

% All: whether a function is true of all elements of a list.
proc {All Xs F B}
   case Xs of nil then B = true
   [] X|Xr then if {F X} then {All Xr F B} else B = false end
   else raise error(type) end end
end

% And: whether both are true.
fun {And A B} if A then B else false end end

% Append: a list with another behind it.
proc {Append Xs Ys Zs}
   case Xs of nil then Zs = Ys
   [] X|Xr then Zs = X|{Append Xr Ys}
   else raise error(type) end end
end

% Assign: gives a cell another content.
proc {Assign C X} local Y in {Exchange C Y X} end end

% Filter: the elements of a list of which a function is true.
proc {Filter Xs F Ys}
   case Xs of nil then Ys = nil
   [] X|Xr then if {F X} then Ys = X|{Filter Xr F} else {Filter Xr F Ys} end
   else raise error(type) end end
end

% Flatten: the elements of a list of lists, however deep these are.
local F in
   proc {F X Ys Zs}
      case X of nil then Ys = Zs
      [] Y|Yr then local Xs in {F Y Ys Xs} {F Yr Xs Zs} end
      else Ys = X|Zs end
   end
   proc {Flatten Xs Ys} {F Xs Ys nil} end
end

% FoldL: a value made from all elements of a list, from the left.
proc {FoldL Xs F A B}
   case Xs of nil then B = A
   [] X|Xr then {FoldL Xr F {F A X} B}
   else raise error(type) end end
end

% FoldR: a value made from all elements of a list, from the right.
proc {FoldR Xs F A B}
   case Xs of nil then B = A
   [] X|Xr then {F X {FoldR Xr F A} B}
   else raise error(type) end end
end

% ForAll: a call for each element of a list.
proc {ForAll Xs P}
   case Xs of nil then skip
   [] X|Xr then {P X} {ForAll Xr P}
   else raise error(type) end end
end

% IsEven: whether an integer is even.
fun {IsEven X} (X mod 2) == 0 end

% IsOdd: whether an integer is odd.
fun {IsOdd X} (X mod 2) \= 0 end

% Length: how many elements a list has.
local F in
   proc {F Xs A N}
      case Xs of nil then N = A
      [] X|Xr then {F Xr A + 1 N}
      else raise error(type) end end
   end
   proc {Length Xs N} {F Xs 0 N} end
end

% List: a record of what there is for lists, with four that have no name alone.
local D L N T in
   proc {D Xs I Ys}
      if I > 0 then
         case Xs of nil then Ys = nil
         [] X|Xr then {D Xr I - 1 Ys}
         else raise error(type) end end
      else Ys = Xs end
   end
   proc {L Xs Y}
      case Xs of X|Xr then if Xr == nil then Y = X else {L Xr Y} end
      else raise error(type) end end
   end
   proc {N A B I Xs}
      if if I < 0 then B =< A else A =< B end then Xs = A|{N A + I B I} else Xs = nil end
   end
   proc {T Xs I Ys}
      if I > 0 then
         case Xs of nil then Ys = nil
         [] X|Xr then Ys = X|{T Xr I - 1}
         else raise error(type) end end
      else Ys = nil end
   end
   List = list(append:Append drop:D filter:Filter foldL:FoldL foldR:FoldR forAll:ForAll last:L length:Length
   map:Map member:Member nth:Nth number:N reverse:Reverse sort:Sort take:T)
end

% Map: the values of a function at all elements of a list.
proc {Map Xs F Ys}
   case Xs of nil then Ys = nil
   [] X|Xr then Ys = {F X}|{Map Xr F}
   else raise error(type) end end
end

% Max: the greater of two integers.
fun {Max X Y} if X < Y then Y else X end end

% Member: whether a value is an element of a list.
proc {Member X Ys B}
   case Ys of nil then B = false
   [] Y|Yr then if X == Y then B = true else {Member X Yr B} end
   else raise error(type) end end
end

% Merge: the elements of two sorted lists, sorted by a function of two.
proc {Merge Xs Ys F Zs}
   case Xs of nil then Zs = Ys
   [] X|Xr then
      case Ys of nil then Zs = Xs
      [] Y|Yr then if {F X Y} then Zs = X|{Merge Xr Ys F} else Zs = Y|{Merge Xs Yr F} end
      else raise error(type) end end
   else raise error(type) end end
end

% Min: the lesser of two integers.
fun {Min X Y} if X < Y then X else Y end end

% Not: whether it is false.
fun {Not B} if B then false else true end end

% Nth: the element of a list at a place, from 1.
proc {Nth Xs I Y}
   case Xs of X|Xr then if I == 1 then Y = X else {Nth Xr I - 1 Y} end
   else raise error(type) end end
end

% Or: whether one of two is true.
fun {Or A B} if A then true else B end end

% Reverse: a list from its end.
local F in
   proc {F Xs Zs Ys}
      case Xs of nil then Ys = Zs
      [] X|Xr then {F Xr X|Zs Ys}
      else raise error(type) end end
   end
   proc {Reverse Xs Ys} {F Xs nil Ys} end
end

% Some: whether a function is true of an element of a list.
proc {Some Xs F B}
   case Xs of nil then B = false
   [] X|Xr then if {F X} then B = true else {Some Xr F B} end
   else raise error(type) end end
end

% Sort: the elements of a list, sorted by a function of two.
local G in
   proc {G Xs I F Ys Zs}
      if I == 1 then
         case Xs of X|Xr then Ys = X|nil Zs = Xr
         else raise error(type) end end
      else
         local A B J Xr in
            J = I div 2
            {G Xs J F A Xr}
            {G Xr I - J F B Zs}
            {Merge A B F Ys}
         end
      end
   end
   proc {Sort Xs F Ys}
      local I Zs in
         I = {Length Xs}
         if I == 0 then Ys = nil else {G Xs I F Ys Zs} end
      end
   end
end
