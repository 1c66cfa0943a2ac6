% One thread goes wrong, and the others go on.
local X Y in
  thread X = 1 raise X end end
  thread
    local One in
      One = 1
      Y = X + One
    end
  end
  {Browse Y}
end
