% A producer and a consumer share a stream: the consumer waits for each element by itself, and no lock is needed.
local Produce Consume One Zero Ten Xs Sum in
  One = 1  Zero = 0  Ten = 10
  proc {Produce N Last ?Xs}
    local Ends in
      Ends = N > Last
      if Ends then Xs = nil
      else
        local Next Xr in
          Xs = N|Xr
          Next = N + One
          {Produce Next Last Xr}
        end
      end
    end
  end
  proc {Consume Xs State ?Sum}
    case Xs of X|Xr then
      local Next in
        Next = State + X
        {Consume Xr Next Sum}
      end
    else Sum = State end
  end
  thread {Consume Xs Zero Sum} end
  thread {Produce One Ten Xs} end
  {Browse Sum}
end
