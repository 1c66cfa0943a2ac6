% A count in two exchanges, one that reads and one that writes: where both threads read first, one count is lost.
local C Zero One Count D1 D2 in
  Zero = 0  One = 1
  {NewCell Zero C}
  proc {Count ?Done}
    local Before After Old in
      {Exchange C Before Before}
      After = Before + One
      {Exchange C Old After}
      Done = done
    end
  end
  thread {Count D1} end
  thread {Count D2} end
  {Wait D1}
  {Wait D2}
  local X in {Exchange C X X} {Browse X} end
end
