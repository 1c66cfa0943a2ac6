% CTM 8.3.3, locks: a token in a cell. Who comes gets what stood there, waits for it, and binds what the next one gets. Two threads
% at two sites move money between two accounts, to and fro; none is lost.
local NewLock Lock A B Add Move Often D1 D2 in
  proc {NewLock ?Lock}
    local C in
      C = {NewCell free}
      proc {Lock P}
        local Old New in
          {Exchange C Old New}
          {Wait Old}
          try {P} finally New = free end
        end
      end
    end
  end
  Lock = {NewLock}
  A = {NewCell 100}
  B = {NewCell 0}
  proc {Add Account Amount}
    local Old New in {Exchange Account Old New} New = Old + Amount end
  end
  proc {Move From To}
    {Lock proc {$} {Add From ~1} {Add To 1} end}
  end
  proc {Often K From To}
    if K == 0 then skip
    else
      {Move From To}
      {Often K - 1 From To}
    end
  end
  thread at 2 {Often 20 A B} D1 = done end
  thread at 3 {Often 20 B A} D2 = done end
  {Wait D1}  {Wait D2}
  local X Y in
    {Exchange A X X}  {Exchange B Y Y}
    {Browse X}
    {Browse X + Y}
  end
end
