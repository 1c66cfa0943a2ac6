% Two values that are not equal: the tell fails, nothing catches the exception, and the thread ends.
local X in
  X = 1
  {Browse X}
  X = 2
  {Browse X}
end
