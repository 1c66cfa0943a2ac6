% CTM 9.2.3, a puzzle by search: five queens, none of which attacks another. Rows are tried from the first one on, and an exception
% leads back from a square on which nothing can be built.
local Attacked Distance Place Try in
  % how far two rows are from each other
  fun {Distance Row Other}
    if Row < Other then Other - Row else Row - Other end
  end
  % whether a queen at the row attacks one of these, of which the first stands so many columns away
  fun {Attacked Row Queens Away}
    case Queens of Q|Qr then
      if Row == Q then true
      else if {Distance Row Q} == Away then true else {Attacked Row Qr Away + 1} end end
    else false end
  end
  % places so many queens more
  fun {Place N Queens}
    if N == 0 then Queens else {Try 1 N Queens} end
  end
  proc {Try Row N Queens ?Answer}
    if Row > 5 then raise none end
    else
      if {Attacked Row Queens 1} then Answer = {Try Row + 1 N Queens}
      else
        try Answer = {Place N - 1 Row|Queens}
        catch E then Answer = {Try Row + 1 N Queens} end
      end
    end
  end
  {Browse {Place 5 nil}}
end
