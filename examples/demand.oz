% CTM 4.3.3, demand-driven streams: the consumer makes the list, and the producer binds each element that is asked for. It makes
% none that nobody wants.
local Produce Sum Xs S in
  proc {Produce N Xs}
    case Xs of X|Xr then X = N {Produce N + 1 Xr}
    else {Browse N} end
  end
  proc {Sum N Xs Before ?S}
    case N of 0 then Xs = nil  S = Before
    else
      local X Xr in
        Xs = X|Xr
        S = {Sum N - 1 Xr Before + X}
      end
    end
  end
  thread S = {Sum 4 Xs 0} end
  {Produce 1 Xs}
  {Browse S}
end
