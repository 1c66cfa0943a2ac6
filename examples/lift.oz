% CTM 5.4.4, agents: a lift at another site takes calls from its port, and tells each floor that it passes. Who called waits until
% it is there.
local Call Lift Move Port Calls in
  Port = {NewPort Calls}
  proc {Call Floor ?There} {Send Port call(Floor There)} end
  proc {Move From To ?At}
    if From < To then {Browse From + 1}  At = {Move From + 1 To}
    else
      if From > To then {Browse From - 1}  At = {Move From - 1 To}
      else At = To end
    end
  end
  proc {Lift Calls Pos}
    case Calls of M|Rest then
      case M of call(Floor There) then
        There = {Move Pos Floor}
        {Lift Rest There}
      else skip end
    else skip end
  end
  thread at 2 {Lift Calls 1} end
  {Wait {Call 3}}
  {Wait {Call 0}}
  {Send Port stop}
end
