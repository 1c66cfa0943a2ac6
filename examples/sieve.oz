% The sieve of Eratosthenes as a pipeline of threads: each prime adds a thread that drops its multiples from the stream.
local Generate Filter Sieve Last Xs Ps in
  Last = 50
  fun {Generate N}
    if N > Last then nil else N|{Generate N + 1} end
  end
  fun {Filter Xs P}
    case Xs of X|Xr then
      if (X mod P) == 0 then {Filter Xr P} else X|{Filter Xr P} end
    else nil end
  end
  proc {Sieve Xs ?Ys}
    case Xs of X|Xr then
      local Kept in
        thread Kept = {Filter Xr X} end
        Ys = X|{Sieve Kept}
      end
    else Ys = nil end
  end
  thread Xs = {Generate 2} end
  thread Ps = {Sieve Xs} end
  {Browse Ps}
end
