% Reversing a list with an accumulator. The last call leaves nothing on the stack.
local Reverse in
  fun {Reverse Xs Done}
    case Xs of X|Xr then {Reverse Xr X|Done}
    else Done end
  end
  {Browse {Reverse a|b|c|nil nil}}
end
