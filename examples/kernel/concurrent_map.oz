% CTM 4.2.3, dataflow threads: a map with a thread for each element. The list is there before its elements are, and each is
% known when its thread has made it.
local Map Wait3 Double F A B C Nil L1 L2 L3 Ys in
  proc {Map Xs F ?Ys}
    case Xs of X|Xr then
      local Y Yr in
        Ys = Y|Yr
        thread {F X Y} end
        {Map Xr F Yr}
      end
    else Ys = nil end
  end
  proc {Double X ?Y} Y = X + X end
  % elements that are not known yet can be mapped, too
  Nil = nil  L3 = C|Nil  L2 = B|L3  L1 = A|L2
  {Map L1 Double Ys}
  proc {Wait3 ?R} C = 3  B = C + C  A = B + C  R = done end
  thread at 2 {Wait3 F} end
  {Browse Ys}
  {Browse F}
end
