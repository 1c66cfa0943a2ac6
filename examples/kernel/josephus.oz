% CTM 7.8.3, active objects: Flavius Josephus. Forty stand in a ring, and every third one goes. Each is a thread that reads a
% stream and writes the next; the message that goes round has the count and the number of those who are left.
local Pipe Stand All Step One Zero Xs Last in
  One = 1  Zero = 0  All = 40  Step = 3
  proc {Stand I Xs ?Ys}
    case Xs of M|Xr then
      case M of count(K Left) then
        case Left of 1 then Last = I  Ys = nil
        else
          local Rest Next in
            Rest = K mod Step  Next = K + One
            case Rest of 0 then
              local Fewer N in Fewer = Left - One  N = count(Next Fewer)  Ys = N|Xr end
            else
              local N Yr in N = count(Next Left)  Ys = N|Yr  {Stand I Xr Yr} end
            end
          end
        end
      else skip end
    else Ys = nil end
  end
  proc {Pipe I Xs ?Ys}
    local More in
      More = I =< All
      if More then
        local Next Zs in
          Next = I + One
          thread {Stand I Xs Zs} end
          {Pipe Next Zs Ys}
        end
      else Ys = Xs end
    end
  end
  local M Round in
    M = count(One All)  Xs = M|Round
    thread {Pipe One Xs Round} end
  end
  {Browse Last}
end
