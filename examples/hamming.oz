% CTM 4.5.6, a network of streams that feeds itself: Hamming's numbers are 1, and twice, three times and five times each of them, in
% order. Each of the five threads stops by itself at numbers above the last one.
local Times Merge Last H H2 H3 H5 H23 Rest in
  Last = 30
  fun {Times N Xs}
    case Xs of X|Xr then
      if (N * X) =< Last then (N * X)|{Times N Xr} else nil end
    else nil end
  end
  % merges two lists in order; what stands in both stands once in the result
  fun {Merge Xs Ys}
    case Xs of X|Xr then
      case Ys of Y|Yr then
        if X < Y then X|{Merge Xr Ys}
        else if X > Y then Y|{Merge Xs Yr} else X|{Merge Xr Yr} end end
      else Xs end
    else Ys end
  end
  H = 1|Rest
  thread H2 = {Times 2 H} end
  thread at 2 H3 = {Times 3 H} end
  thread at 3 H5 = {Times 5 H} end
  thread H23 = {Merge H2 H3} end
  thread Rest = {Merge H23 H5} end
  {Browse H}
end
