% CTM 5.4.4, agents: a lift at another site takes calls from its port, and tells each floor that it passes. Who called waits until
% it is there.
local Call Lift Move Port Calls Stop Zero One Three A B in
  Zero = 0  One = 1  Three = 3
  {NewPort Calls Port}
  proc {Call Floor ?There}
    local M in M = call(Floor There)  {Send Port M} end
  end
  proc {Move From To ?At}
    local Up Down in
      Up = From < To  Down = From > To
      if Up then
        local F in F = From + One  {Browse F}  {Move F To At} end
      else
        if Down then
          local F in F = From - One  {Browse F}  {Move F To At} end
        else At = To end
      end
    end
  end
  proc {Lift Calls Pos}
    case Calls of M|Rest then
      case M of call(Floor There) then
        local At in
          {Move Pos Floor At}
          There = At
          {Lift Rest At}
        end
      else skip end
    else skip end
  end
  thread at 2 {Lift Calls One} end
  {Call Three A}  {Wait A}
  {Call Zero B}  {Wait B}
  Stop = stop  {Send Port Stop}
end
