% A procedure is a value: Map takes one and calls it for each element of a list.
local Map Square Double Count One Five L M N in
  One = 1
  Five = 5
  proc {Map Xs F ?Ys}
    case Xs of X|Xr then
      local Y Yr in
        Ys = Y|Yr
        {F X Y}
        {Map Xr F Yr}
      end
    else Ys = nil end
  end
  proc {Square X ?Y} Y = X * X end
  proc {Double X ?Y} Y = X + X end
  proc {Count From To ?Xs}
    local Ends in
      Ends = From > To
      if Ends then Xs = nil
      else
        local Next Xr in
          Xs = From|Xr
          Next = From + One
          {Count Next To Xr}
        end
      end
    end
  end
  {Count One Five L}
  {Map L Square M}
  {Map M Double N}
  {Browse L}
  {Browse M}
  {Browse N}
end
