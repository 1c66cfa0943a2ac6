% A variable is bound once, and shown.
local X in
  X = 5
  {Browse X}
end
