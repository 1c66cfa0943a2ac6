% A procedure is a value: Map takes one and calls it for each element of a list.
local Map Double Count L M in
  fun {Map Xs F}
    case Xs of X|Xr then {F X}|{Map Xr F}
    else nil end
  end
  fun {Double X} X + X end
  fun {Count From To}
    if From > To then nil else From|{Count From + 1 To} end
  end
  L = {Count 1 5}
  M = {Map L fun {$ X} X * X end}
  {Browse L}
  {Browse M}
  {Browse {Map M Double}}
end
