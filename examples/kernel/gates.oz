% Logic gates are threads over streams of bits: a half adder of two gates gives the sum and the carry of each pair.
local Gate And Xor Two Zero One Nil A B Sum Carry in
  Two = 2  Zero = 0  One = 1  Nil = nil
  proc {Gate F Xs Ys ?Zs}
    case Xs of X|Xr then
      case Ys of Y|Yr then
        local Z Zr in
          Zs = Z|Zr
          {F X Y Z}
          {Gate F Xr Yr Zr}
        end
      else Zs = nil end
    else Zs = nil end
  end
  proc {And X Y ?Z} Z = X * Y end
  proc {Xor X Y ?Z}
    local S in
      S = X + Y
      Z = S mod Two
    end
  end
  thread {Gate Xor A B Sum} end
  thread {Gate And A B Carry} end
  % the bits come one by one
  local A1 A2 A3 B1 B2 B3 in
    A = Zero|A1  B = Zero|B1
    A1 = One|A2  B1 = Zero|B2
    A2 = Zero|A3  B2 = One|B3
    A3 = One|Nil  B3 = One|Nil
  end
  {Browse Sum}
  {Browse Carry}
end
