% CTM 4.4.3, concurrent composition: a barrier runs procedures at once, each in a thread of its own, and goes on when all have
% ended. Each thread binds a variable to that of the thread before it, so that the last one is known when all are.
local Barrier Count Tally Once Twice Thrice in
  Tally = {NewCell 0}
  proc {Count}
    local Old New in {Exchange Tally Old New} New = Old + 1 end
  end
  proc {Barrier Ps}
    local Start in
      proc {Start Ps Before ?Last}
        case Ps of P|Pr then
          local After in
            thread {P} After = Before end
            {Start Pr After Last}
          end
        else Last = Before end
      end
      {Wait {Start Ps go}}
    end
  end
  proc {Once} {Count} end
  proc {Twice} {Count} {Count} end
  proc {Thrice} {Count} {Count} {Count} end
  {Barrier Once|Twice|Thrice|nil}
  local Sum in {Exchange Tally Sum Sum} {Browse Sum} end
end
