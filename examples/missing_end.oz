% Refused: the text ends before the procedure does.
local Twice in
  proc {Twice X ?Y}
    Y = X + X
