% An exception goes to the nearest handler. What was bound before it stays bound.
local Divide in
  proc {Divide X Y ?R}
    try R = X div Y
    catch E then {Browse E} R = none end
  end
  {Browse {Divide 7 2}}
  {Browse {Divide 7 0}}
end
