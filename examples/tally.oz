% CTM 11.4, what state over sites costs: as in visits.oz, threads at four sites count to five each, but no cell goes round. Each
% counts by itself, and hands over a stream of what it counted; who wants the sum reads the streams. That takes fewer messages.
local Count Sum Xs1 Xs2 Xs3 Xs4 in
  proc {Count N ?Xs}
    if N == 0 then Xs = nil
    else
      local Xr in
        {Count N - 1 Xr}
        Xs = 1|Xr
      end
    end
  end
  fun {Sum Xs Before}
    case Xs of X|Xr then {Sum Xr Before + X}
    else Before end
  end
  thread at 1 Xs1 = {Count 5} end
  thread at 2 Xs2 = {Count 5} end
  thread at 3 Xs3 = {Count 5} end
  thread at 4 Xs4 = {Count 5} end
  {Browse {Sum Xs4 {Sum Xs3 {Sum Xs2 {Sum Xs1 0}}}}}
end
