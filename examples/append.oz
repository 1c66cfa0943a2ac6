% Lists are records with a head and a tail; nil is an atom. Append goes through the first list and shares the second.
local Append L1 L2 in
  fun {Append Xs Ys}
    case Xs of X|Xr then X|{Append Xr Ys}
    else Ys end
  end
  L1 = a|b|nil
  L2 = c|nil
  {Browse {Append L1 L2}}
  {Browse L1|L2}
end
