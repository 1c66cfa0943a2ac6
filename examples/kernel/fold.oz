% A loop with an accumulator, made from a procedure that is handed in: the sum and the product of a list.
local Fold Add Multiply A B C Zero One Nil Xs S P in
  proc {Fold Xs F State ?End}
    case Xs of X|Xr then
      local Next in
        {F State X Next}
        {Fold Xr F Next End}
      end
    else End = State end
  end
  proc {Add X Y ?Z} Z = X + Y end
  proc {Multiply X Y ?Z} Z = X * Y end
  A = 3  B = 4  C = 5  Zero = 0  One = 1  Nil = nil
  local T U in
    U = C|Nil
    T = B|U
    Xs = A|T
  end
  {Fold Xs Add Zero S}
  {Fold Xs Multiply One P}
  {Browse S}
  {Browse P}
end
