% What is kept by key: an association list is searched by ==, which compares whole keys. Two lists are the same as soon as what is
% known of them tells it, and differ as soon as one part does.
local Find Keys K1 K2 K3 V1 V2 A B C Nil Found Missing Absent Same in
  proc {Find List Key Default ?Value}
    case List of Pair|Rest then
      case Pair of entry(Other Kept) then
        local IsIt in
          IsIt = Other == Key
          if IsIt then Value = Kept else {Find Rest Key Default Value} end
        end
      else skip end
    else Value = Default end
  end
  A = 1  B = 2  C = 3  Nil = nil
  K1 = point(x:A y:B)  K2 = point(x:A y:C)  K3 = point(x:B y:B)
  V1 = first  V2 = second  Absent = none
  local P Q T in
    P = entry(K1 V1)  Q = entry(K2 V2)
    T = Q|Nil
    Keys = P|T
  end
  {Find Keys K2 Absent Found}
  {Find Keys K3 Absent Missing}
  {Browse Found}
  {Browse Missing}
  local L M Open in
    L = A|Open
    M = B|Open
    Same = L == M
    {Browse Same}
  end
end
