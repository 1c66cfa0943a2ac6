% CTM 8.3.3, locks: a token in a cell. Who comes gets what stood there, waits for it, and binds what the next one gets. Two threads
% at two sites move money between two accounts, to and fro; none is lost.
local NewLock Lock A B Move Often Times Zero One Hundred D1 D2 in
  Zero = 0  One = 1  Hundred = 100  Times = 20
  proc {NewLock ?Lock}
    local Free C in
      Free = free
      {NewCell Free C}
      proc {Lock P}
        local Old New in
          {Exchange C Old New}
          {Wait Old}
          try {P} New = Free catch E then New = Free raise E end end
        end
      end
    end
  end
  {NewLock Lock}
  {NewCell Hundred A}
  {NewCell Zero B}
  proc {Move From To}
    local P in
      P = proc {$}
        local X Y X1 Y1 in
          {Exchange From X X1}  X1 = X - One
          {Exchange To Y Y1}  Y1 = Y + One
        end
      end
      {Lock P}
    end
  end
  proc {Often K From To}
    case K of 0 then skip
    else
      local K1 in
        {Move From To}
        K1 = K - One
        {Often K1 From To}
      end
    end
  end
  thread at 2 {Often Times A B} D1 = done end
  thread at 3 {Often Times B A} D2 = done end
  {Wait D1}  {Wait D2}
  local X Y Sum in
    {Exchange A X X}  {Exchange B Y Y}
    {Browse X}
    Sum = X + Y
    {Browse Sum}
  end
end
