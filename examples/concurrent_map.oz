% CTM 4.2.3, dataflow threads: a map with a thread for each element. The list is there before its elements are, and each is
% known when its thread has made it.
local Map Wait3 Double F A B C Ys in
  proc {Map Xs F ?Ys}
    case Xs of X|Xr then
      local Y Yr in
        Ys = Y|Yr
        thread Y = {F X} end
        Yr = {Map Xr F}
      end
    else Ys = nil end
  end
  fun {Double X} X + X end
  % elements that are not known yet can be mapped, too
  Ys = {Map A|B|C|nil Double}
  proc {Wait3 ?R} C = 3  B = C + C  A = B + C  R = done end
  thread at 2 F = {Wait3} end
  {Browse Ys}
  {Browse F}
end
