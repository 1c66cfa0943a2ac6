% CTM 4.2.3, threads are cheap: each call starts a thread for one of its two calls, and waits for nothing but their sum.
local Fibonacci One Two Ten F in
  One = 1  Two = 2  Ten = 10
  proc {Fibonacci N ?F}
    local Small in
      Small = N =< Two
      if Small then F = One
      else
        local M K G H in
          M = N - One  K = N - Two
          thread {Fibonacci M G} end
          {Fibonacci K H}
          F = G + H
        end
      end
    end
  end
  {Fibonacci Ten F}
  {Browse F}
end
