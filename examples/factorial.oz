% Integers have 128 bits: thirty-three is the last number whose factorial fits, and one more raises an exception.
local Factorial in
  fun {Factorial N}
    if N =< 0 then 1 else N * {Factorial N - 1} end
  end
  {Browse {Factorial 25}}
  {Browse {Factorial 33}}
  try {Browse {Factorial 34}}
  catch E then {Browse E} end
end
