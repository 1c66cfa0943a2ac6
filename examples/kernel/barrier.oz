% CTM 4.4.3, concurrent composition: a barrier runs procedures at once, each in a thread of its own, and goes on when all have
% ended. Each thread binds a variable to that of the thread before it, so that the last one is known when all are.
local Barrier Count Tally Zero One Nil A B C L1 L2 L3 in
  Zero = 0  One = 1  Nil = nil
  {NewCell Zero Tally}
  proc {Count}
    local Old New in {Exchange Tally Old New} New = Old + One end
  end
  proc {Barrier Ps}
    local Start Go Last in
      proc {Start Ps Before ?Last}
        case Ps of P|Pr then
          local After in
            thread {P} After = Before end
            {Start Pr After Last}
          end
        else Last = Before end
      end
      Go = go
      {Start Ps Go Last}
      {Wait Last}
    end
  end
  A = proc {$} {Count} end
  B = proc {$} {Count} {Count} end
  C = proc {$} {Count} {Count} {Count} end
  L3 = C|Nil  L2 = B|L3  L1 = A|L2
  {Barrier L1}
  local Sum in {Exchange Tally Sum Sum} {Browse Sum} end
end
