% CTM 4.3.3, demand-driven streams: the consumer makes the list, and the producer binds each element that is asked for. It makes
% none that nobody wants.
local Produce Sum Zero One Four Xs S in
  Zero = 0  One = 1  Four = 4
  proc {Produce N Xs}
    case Xs of X|Xr then
      local Next in
        X = N
        Next = N + One
        {Produce Next Xr}
      end
    else {Browse N} end
  end
  proc {Sum N Xs Before ?S}
    case N of 0 then Xs = nil  S = Before
    else
      local X Xr Less After in
        Xs = X|Xr
        Less = N - One
        After = Before + X
        {Sum Less Xr After S}
      end
    end
  end
  thread {Sum Four Xs Zero S} end
  {Produce One Xs}
  {Browse S}
end
