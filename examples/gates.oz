% Logic gates are threads over streams of bits: a half adder of two gates gives the sum and the carry of each pair.
local Gate And Xor A B Sum Carry in
  fun {Gate F Xs Ys}
    case Xs of X|Xr then
      case Ys of Y|Yr then {F X Y}|{Gate F Xr Yr}
      else nil end
    else nil end
  end
  fun {And X Y} X * Y end
  fun {Xor X Y} (X + Y) mod 2 end
  thread Sum = {Gate Xor A B} end
  thread Carry = {Gate And A B} end
  % the bits come one by one
  local A1 A2 A3 B1 B2 B3 in
    A = 0|A1  B = 0|B1
    A1 = 1|A2  B1 = 0|B2
    A2 = 0|A3  B2 = 1|B3
    A3 = 1|nil  B3 = 1|nil
  end
  {Browse Sum}
  {Browse Carry}
end
