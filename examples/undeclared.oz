% Refused: nothing declares Y.
local X in
  X = f(Y)
end
