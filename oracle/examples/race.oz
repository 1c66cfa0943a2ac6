% Two threads tell one variable two values. The one that comes first is shown; the other one fails, and its line may come before.
local X in
  thread X = 1 end
  thread X = 2 end
  {Browse X}
end
