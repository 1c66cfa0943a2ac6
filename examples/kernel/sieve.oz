% The sieve of Eratosthenes as a pipeline of threads: each prime adds a thread that drops its multiples from the stream.
local Generate Filter Sieve One Two Last Zero Xs Ps in
  One = 1  Two = 2  Last = 50  Zero = 0
  proc {Generate N ?Xs}
    local Ends in
      Ends = N > Last
      if Ends then Xs = nil
      else
        local Next Xr in
          Xs = N|Xr
          Next = N + One
          {Generate Next Xr}
        end
      end
    end
  end
  proc {Filter Xs P ?Ys}
    case Xs of X|Xr then
      local Rest in
        Rest = X mod P
        case Rest of 0 then {Filter Xr P Ys}
        else
          local Yr in
            Ys = X|Yr
            {Filter Xr P Yr}
          end
        end
      end
    else Ys = nil end
  end
  proc {Sieve Xs ?Ys}
    case Xs of X|Xr then
      local Kept Yr in
        Ys = X|Yr
        thread {Filter Xr X Kept} end
        {Sieve Kept Yr}
      end
    else Ys = nil end
  end
  thread {Generate Two Xs} end
  thread {Sieve Xs Ps} end
  {Browse Ps}
end
