% Integers have 128 bits: thirty-three is the last number whose factorial fits, and one more raises an exception.
local Factorial Zero One Most F G in
  Zero = 0  One = 1  Most = 33
  proc {Factorial N ?F}
    local Ends in
      Ends = N =< Zero
      if Ends then F = 1
      else
        local Less G in
          Less = N - One
          {Factorial Less G}
          F = N * G
        end
      end
    end
  end
  local N in
    N = 25
    {Factorial N F}
  end
  {Browse F}
  {Factorial Most G}
  {Browse G}
  try
    local N H in
      N = Most + One
      {Factorial N H}
    end
  catch E then {Browse E} end
end
