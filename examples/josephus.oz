% CTM 7.8.3, active objects: Flavius Josephus. Forty stand in a ring, and every third one goes. Each is a thread that reads a
% stream and writes the next; the message that goes round has the count and the number of those who are left.
local Pipe Stand All Step Last Xs in
  All = 40  Step = 3
  proc {Stand I Xs ?Ys}
    case Xs of M|Xr then
      case M of count(K Left) then
        if Left == 1 then Last = I  Ys = nil
        else
          if (K mod Step) == 0 then Ys = count(K + 1 Left - 1)|Xr
          else Ys = count(K + 1 Left)|{Stand I Xr} end
        end
      else skip end
    else Ys = nil end
  end
  proc {Pipe I Xs ?Ys}
    if I =< All then
      local Zs in
        thread Zs = {Stand I Xs} end
        Ys = {Pipe I + 1 Zs}
      end
    else Ys = Xs end
  end
  local Round in
    Xs = count(1 All)|Round
    thread Round = {Pipe 1 Xs} end
  end
  {Browse Last}
end
