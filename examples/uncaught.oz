% One thread goes wrong, and the others go on.
local X Y in
  thread X = 1 raise X end end
  thread Y = X + 1 end
  {Browse Y}
end
