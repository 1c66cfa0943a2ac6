% A producer and a consumer share a stream: the consumer waits for each element by itself, and no lock is needed.
local Produce Consume Xs Sum in
  fun {Produce N Last}
    if N > Last then nil else N|{Produce N + 1 Last} end
  end
  fun {Consume Xs State}
    case Xs of X|Xr then {Consume Xr State + X}
    else State end
  end
  thread Sum = {Consume Xs 0} end
  thread Xs = {Produce 1 10} end
  {Browse Sum}
end
