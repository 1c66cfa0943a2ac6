% CTM 4.2.3, threads are cheap: each call starts a thread for one of its two calls, and waits for nothing but their sum.
local Fibonacci in
  proc {Fibonacci N ?F}
    if N =< 2 then F = 1
    else
      local G in
        thread G = {Fibonacci N - 1} end
        F = {Fibonacci N - 2} + G
      end
    end
  end
  {Browse {Fibonacci 10}}
end
