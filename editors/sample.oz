% a comment if
/* nested /* local */ still */
local Twice X in
  proc {Twice A ?B}
    B = A + A
  end
  X = ~5
  case X of 'an\'atom\q'(a:Y) then {Browse Y} else {Wait X} fun class end
  X = Y == Z [] 007 finally
  Browse = X div Y
  if_x = thread_1
end
