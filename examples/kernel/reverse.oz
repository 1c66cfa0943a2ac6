% Reversing a list with an accumulator. The last call leaves nothing on the stack.
local Reverse A B C Nil Xs Ys in
  proc {Reverse Xs Done ?Ys}
    case Xs of X|Xr then
      local More in
        More = X|Done
        {Reverse Xr More Ys}
      end
    else Ys = Done end
  end
  A = a  B = b  C = c  Nil = nil
  local T U in
    U = C|Nil
    T = B|U
    Xs = A|T
  end
  {Reverse Xs Nil Ys}
  {Browse Ys}
end
