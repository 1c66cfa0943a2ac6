% CTM 9.2.3, a puzzle by search: five queens, none of which attacks another. Rows are tried from the first one on, and an exception
% leads back from a square on which nothing can be built.
local Attacked Place Try Zero One Nil Five Answer in
  Zero = 0  One = 1  Five = 5  Nil = nil
  % whether a queen at the row attacks one of these, of which the first stands so many columns away
  proc {Attacked Row Queens Away ?B}
    case Queens of Q|Qr then
      local Up Down in
        Up = Row - Q  Down = Q - Row
        case Up of 0 then B = true
        else
          local Far Same in
            Far = Up >= Zero
            if Far then Same = Up else Same = Down end
            local Least Most in
              Least = Same >= Away  Most = Same =< Away
              if Least then
                if Most then B = true
                else local Next in Next = Away + One {Attacked Row Qr Next B} end end
              else local Next in Next = Away + One {Attacked Row Qr Next B} end end
            end
          end
        end
      end
    else B = false end
  end
  % places so many queens more
  proc {Place N Queens ?Answer}
    case N of 0 then Answer = Queens
    else {Try One N Queens Answer} end
  end
  proc {Try Row N Queens ?Answer}
    local Fits in
      Fits = Row =< Five
      if Fits then
        local B Next in
          {Attacked Row Queens One B}
          Next = Row + One
          if B then {Try Next N Queens Answer}
          else
            local More Less Found in
              More = Row|Queens
              Less = N - One
              try {Place Less More Found} Answer = Found
              catch E then {Try Next N Queens Answer} end
            end
          end
        end
      else local E in E = none raise E end end end
    end
  end
  {Place Five Nil Answer}
  {Browse Answer}
end
