% A loop with an accumulator, made from a procedure that is handed in: the sum and the product of a list.
local Fold Xs in
  fun {Fold Xs F State}
    case Xs of X|Xr then {Fold Xr F {F State X}}
    else State end
  end
  Xs = 3|4|5|nil
  {Browse {Fold Xs fun {$ X Y} X + Y end 0}}
  {Browse {Fold Xs fun {$ X Y} X * Y end 1}}
end
