% CTM 4.5.6, a network of streams that feeds itself: Hamming's numbers are 1, and twice, three times and five times each of them, in
% order. Each of the five threads stops by itself at numbers above the last one.
local Times Merge One Two Three Five Last H H2 H3 H5 H23 Rest in
  One = 1  Two = 2  Three = 3  Five = 5  Last = 30
  proc {Times N Xs ?Ys}
    case Xs of X|Xr then
      local Y Fits in
        Y = N * X
        Fits = Y =< Last
        if Fits then
          local Yr in Ys = Y|Yr {Times N Xr Yr} end
        else Ys = nil end
      end
    else Ys = nil end
  end
  % merges two lists in order; what stands in both stands once in the result
  proc {Merge Xs Ys ?Zs}
    case Xs of X|Xr then
      case Ys of Y|Yr then
        local Less More in
          Less = X < Y
          More = X > Y
          if Less then
            local Zr in Zs = X|Zr {Merge Xr Ys Zr} end
          else
            if More then
              local Zr in Zs = Y|Zr {Merge Xs Yr Zr} end
            else
              local Zr in Zs = X|Zr {Merge Xr Yr Zr} end
            end
          end
        end
      else Zs = Xs end
    else Zs = Ys end
  end
  H = One|Rest
  thread {Times Two H H2} end
  thread at 2 {Times Three H H3} end
  thread at 3 {Times Five H H5} end
  thread {Merge H2 H3 H23} end
  thread {Merge H23 H5 Rest} end
  {Browse H}
end
