% CTM 11.4, what state over sites costs: as in visits.oz, threads at four sites count to five each, but no cell goes round. Each
% counts by itself, and hands over a stream of what it counted; who wants the sum reads the streams. That takes fewer messages.
local Count Sum Zero One Five Xs1 Xs2 Xs3 Xs4 S1 S2 S3 S4 in
  Zero = 0  One = 1  Five = 5
  proc {Count N ?Xs}
    case N of 0 then Xs = nil
    else
      local Xr Less in
        Less = N - One
        {Count Less Xr}
        Xs = One|Xr
      end
    end
  end
  proc {Sum Xs Before ?S}
    case Xs of X|Xr then
      local After in After = Before + X {Sum Xr After S} end
    else S = Before end
  end
  thread at 1 {Count Five Xs1} end
  thread at 2 {Count Five Xs2} end
  thread at 3 {Count Five Xs3} end
  thread at 4 {Count Five Xs4} end
  {Sum Xs1 Zero S1}
  {Sum Xs2 S1 S2}
  {Sum Xs3 S2 S3}
  {Sum Xs4 S3 S4}
  {Browse S4}
end
