% An exception goes to the nearest handler. What was bound before it stays bound.
local Divide A B Zero Q in
  A = 7
  B = 2
  Zero = 0
  proc {Divide X Y ?R}
    try R = X div Y
    catch E then {Browse E} R = none end
  end
  {Divide A B Q}
  {Browse Q}
  local R in
    {Divide A Zero R}
    {Browse R}
  end
end
