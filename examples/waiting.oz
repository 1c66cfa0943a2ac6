% A thread that waits for a variable that nobody binds waits for ever.
local Nobody in
  {Browse Nobody}
end
