% Lists are records with a head and a tail; nil is an atom. Append goes through the first list and shares the second.
local Append A B C Nil L1 L2 L3 M in
  proc {Append Xs Ys ?Zs}
    case Xs of X|Xr then
      local Zr in
        Zs = X|Zr
        {Append Xr Ys Zr}
      end
    else Zs = Ys end
  end
  A = a  B = b  C = c  Nil = nil
  local T in T = B|Nil L1 = A|T end
  L2 = C|Nil
  {Append L1 L2 L3}
  {Browse L3}
  M = L1|L2
  {Browse M}
end
